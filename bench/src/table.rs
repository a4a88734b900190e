//! The rows of the table: what each side takes at best, over all rounds.

use std::hint::black_box;
use std::time::Instant;

/// Repeats of a row in a round, after the first. A repeat runs the peer, then the port.
const REPEATS: usize = 30;

/// What a repeat takes at least, in nanoseconds: short calls are run several times.
const AT_LEAST: f64 = 2.5e5;

/// What all repeats take at most: long calls are repeated less often.
const AT_MOST: f64 = 5e8;

struct Row {
    what: String,
    items: Items,
    target: Option<f64>,
    peer: Side,
    port: Side,
}

/// The nanoseconds of a side at best, and of what it does before, which is taken off.
#[derive(Clone, Copy)]
struct Side {
    all: f64,
    before: f64,
}

impl Side {
    fn keep(&mut self, other: Side) {
        self.all = self.all.min(other.all);
        self.before = self.before.min(other.before);
    }

    fn each(self, items: usize) -> f64 {
        (self.all - self.before) / items as f64
    }
}

/// How many items a call of the peer handles, and how many one of the port: the same but where one side is too slow for it.
#[derive(Clone, Copy)]
pub struct Items {
    pub peer: usize,
    pub port: usize,
}

impl From<usize> for Items {
    fn from(items: usize) -> Self {
        Self {
            peer: items,
            port: items,
        }
    }
}

/// The port beside a peer.
pub struct Table {
    peer: &'static str,
    rows: Vec<Row>,
}

/// The words on the command line pick the rows that have them all.
pub fn is_asked(what: &str) -> bool {
    std::env::args().skip(1).all(|word| what.contains(&word))
}

/// Runs something so many times, and gives the nanoseconds of one.
type Timed<'a> = &'a mut dyn FnMut(usize) -> f64;

fn timed<T>(mut f: impl FnMut() -> T) -> impl FnMut(usize) -> f64 {
    move |calls| {
        let start = Instant::now();
        for _ in 0..calls {
            black_box(f());
        }
        start.elapsed().as_nanos() as f64 / calls as f64
    }
}

/// Each call uses up an input. The clock stands while inputs are made and what the calls give is dropped.
fn timed_with<A, T>(
    mut input: impl FnMut() -> A,
    mut f: impl FnMut(A) -> T,
) -> impl FnMut(usize) -> f64 {
    move |calls| {
        let inputs: Vec<A> = (0..calls).map(|_| input()).collect();
        let mut given = Vec::with_capacity(calls);
        let start = Instant::now();
        for a in inputs {
            given.push(black_box(f(black_box(a))));
        }
        start.elapsed().as_nanos() as f64 / calls as f64
    }
}

impl Table {
    pub fn new(peer: &'static str) -> Self {
        Self { peer, rows: vec![] }
    }

    /// Keeps the best of the peer and of the port, and of what each does before.
    fn keep(&mut self, what: &str, items: Items, target: Option<f64>, mut sides: [Timed; 4]) {
        if !is_asked(what) {
            return;
        }
        let mut best = sides.each_mut().map(|side| side(1));
        let calls = (AT_LEAST / best[0].max(best[2])).ceil();
        let repeats = (AT_MOST / (calls * best.iter().sum::<f64>())) as usize;
        for _ in 0..repeats.min(REPEATS) {
            for (best, side) in best.iter_mut().zip(&mut sides) {
                *best = best.min(side(calls as usize));
            }
        }
        let [peer, port] = [0, 2].map(|i| Side {
            all: best[i],
            before: best[i + 1],
        });
        match self.rows.iter_mut().find(|row| row.what == what) {
            Some(row) => {
                row.peer.keep(peer);
                row.port.keep(port);
            }
            None => self.rows.push(Row {
                what: what.to_string(),
                items,
                target,
                peer,
                port,
            }),
        }
    }

    /// Times both sides, which handle so many items, and keeps the best.
    pub fn row<T, U>(
        &mut self,
        what: &str,
        items: usize,
        target: Option<f64>,
        peer: impl FnMut() -> T,
        port: impl FnMut() -> U,
    ) {
        self.keep(
            what,
            items.into(),
            target,
            [
                &mut timed(peer),
                &mut |_| 0.0,
                &mut timed(port),
                &mut |_| 0.0,
            ],
        );
    }

    /// The same for sides that use up an input, which is made outside the clock.
    pub fn row_with<A, B, T, U>(
        &mut self,
        what: &str,
        items: usize,
        target: Option<f64>,
        peer: (impl FnMut() -> A, impl FnMut(A) -> T),
        port: (impl FnMut() -> B, impl FnMut(B) -> U),
    ) {
        self.keep(
            what,
            items.into(),
            target,
            [
                &mut timed_with(peer.0, peer.1),
                &mut |_| 0.0,
                &mut timed_with(port.0, port.1),
                &mut |_| 0.0,
            ],
        );
    }

    /// A row of two functions that give the same sum.
    pub fn same(
        &mut self,
        what: &str,
        items: usize,
        target: Option<f64>,
        peer: impl Fn() -> u64,
        port: impl Fn() -> u64,
    ) {
        assert_eq!(peer(), port(), "{what}");
        self.row(what, items, target, peer, port);
    }

    /// Times a function of the port that first does something else: what that takes alone is taken off.
    pub fn row_after<T, U>(
        &mut self,
        what: &str,
        items: impl Into<Items>,
        target: Option<f64>,
        peer: impl FnMut() -> T,
        port: impl FnMut() -> U,
        port_before: impl FnMut() -> U,
    ) {
        self.keep(
            what,
            items.into(),
            target,
            [
                &mut timed(peer),
                &mut |_| 0.0,
                &mut timed(port),
                &mut timed(port_before),
            ],
        );
    }

    /// The same where the peer does something else first too: each side as all of it, and what comes before.
    pub fn row_after_both<T, U>(
        &mut self,
        what: &str,
        items: usize,
        target: Option<f64>,
        peer: (impl FnMut() -> T, impl FnMut() -> T),
        port: (impl FnMut() -> U, impl FnMut() -> U),
    ) {
        self.keep(
            what,
            items.into(),
            target,
            [
                &mut timed(peer.0),
                &mut timed(peer.1),
                &mut timed(port.0),
                &mut timed(port.1),
            ],
        );
    }

    /// Nothing where no row was asked for.
    pub fn print(&self) {
        if self.rows.is_empty() {
            return;
        }
        let peer = self.peer;
        println!("| what | {peer}, ns | port, ns | port / {peer} | target | |");
        println!("|---|---:|---:|---:|---:|---|");
        for row in &self.rows {
            let peer = row.peer.each(row.items.peer);
            let port = row.port.each(row.items.port);
            let ratio = port / peer;
            let digits = if ratio < 0.01 { 5 } else { 2 };
            let (target, verdict) = match row.target {
                Some(t) => (format!("{t:?}"), if ratio <= t { "met" } else { "missed" }),
                None => (String::new(), ""),
            };
            println!(
                "| {} | {peer:.2} | {port:.2} | {ratio:.digits$} | {target} | {verdict} |",
                row.what
            );
        }
    }
}
