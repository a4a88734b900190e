//! The rows beside the second peer, sdsl-lite's `sd_vector`, on strictly rising lists. Built where bench/run finds it.

use std::ffi::c_void;
use std::hint::black_box;

use crate::port::{self, Answer, PORT};
use crate::record::at_a_million;
use crate::table::{is_asked, Table};
use crate::{rust, Random, QUESTIONS};

mod c {
    use std::ffi::c_void;

    extern "C" {
        pub fn sdsl_build(times: *const u64, n: usize) -> *mut c_void;
        pub fn sdsl_drop(side: *mut c_void);
        pub fn sdsl_selects(side: *const c_void, ks: *const u64, n: usize, out: *mut u64);
        pub fn sdsl_ranks(side: *const c_void, values: *const u64, n: usize, out: *mut u64);
    }
}

struct Side(*mut c_void);

impl Drop for Side {
    fn drop(&mut self) {
        unsafe { c::sdsl_drop(self.0) }
    }
}

impl Side {
    fn new(times: &[u64]) -> Self {
        Self(unsafe { c::sdsl_build(times.as_ptr(), times.len()) })
    }

    fn selects(&self, ks: &[u64], out: &mut [u64]) {
        assert_eq!(ks.len(), out.len());
        unsafe { c::sdsl_selects(self.0, ks.as_ptr(), ks.len(), out.as_mut_ptr()) }
    }

    fn ranks(&self, values: &[u64], out: &mut [u64]) {
        assert_eq!(values.len(), out.len());
        unsafe { c::sdsl_ranks(self.0, values.as_ptr(), values.len(), out.as_mut_ptr()) }
    }
}

const ROWS: [&str; 4] = [
    "build with rank",
    "push and build with rank",
    "select",
    "rank",
];

/// The longest time between two readings, in seconds; the shortest is 1.
const LONGEST: usize = 1800;

fn name(row: &str, n: usize) -> String {
    format!("strict {row}, {n} times")
}

/// Both sides' record of one strictly rising list.
pub struct Strict {
    times: Vec<u64>,
    universe: u64,
    side: Side,
    pushed: Vec<u64>,
    image: Vec<u64>,
    ks: Vec<u64>,
    values: Vec<u64>,
}

impl Strict {
    /// None where no row is asked for.
    pub fn new(n: usize, random: &mut Random) -> Option<Self> {
        if !ROWS.iter().any(|row| is_asked(&name(row, n))) {
            return None;
        }
        let gap = |last: &mut u64, _| {
            *last += 1 + random.below(LONGEST) as u64;
            Some(*last)
        };
        let times: Vec<u64> = (0..n).scan(0, gap).collect();
        let universe = times[n - 1] + 1;
        let record = rust::record_build(rust::record_push(universe, &times), true);
        let image = rust::image_words(&record, n);
        let mut pushed = port::lent(universe, n, true, 0);
        assert_eq!(PORT.record_push(universe, &times, &mut pushed), n as u64);
        let mut some = |below| -> Vec<u64> {
            let places = random.places(QUESTIONS, below);
            places.into_iter().map(|p| p as u64).collect()
        };
        let (ks, values) = (some(n), some(universe as usize));
        Some(Self {
            side: Side::new(&times),
            times,
            universe,
            pushed,
            image,
            ks,
            values,
        })
    }

    pub fn rows(&self, table: &mut Table) {
        let n = self.times.len();
        let last = self.times[n - 1];
        let [build, both, select, rank] = ROWS.map(|row| name(row, n));
        let bulk = || (|| (), |()| Side::new(black_box(&self.times)));
        let finish = |mut words: Vec<u64>| {
            PORT.record_build(self.universe, n, last, true, &mut words);
            words
        };
        table.row_with(
            &build,
            n,
            at_a_million(n, 0.5),
            bulk(),
            (|| self.pushed.clone(), finish),
        );
        table.row_with(
            &both,
            n,
            at_a_million(n, 1.0),
            bulk(),
            (
                || vec![0; self.pushed.len()],
                |mut words: Vec<u64>| {
                    PORT.record_push(self.universe, black_box(&self.times), &mut words);
                    finish(words)
                },
            ),
        );
        let side = &self.side;
        self.asked(table, &select, 0.75, &self.ks, PORT.selects, |ks, out| {
            side.selects(ks, out)
        });
        self.asked(table, &rank, 0.6, &self.values, PORT.ranks, |vs, out| {
            side.ranks(vs, out)
        });
    }

    fn asked(
        &self,
        table: &mut Table,
        what: &str,
        target: f64,
        args: &[u64],
        many: port::Many,
        ask: impl Fn(&[u64], &mut [u64]),
    ) {
        if !is_asked(what) {
            return;
        }
        let mut theirs = vec![0; args.len()];
        let mut ours = vec![Answer::default(); args.len()];
        ask(args, &mut theirs);
        port::record_ask(many, &self.image, args, &mut ours);
        let same = ours.iter().zip(&theirs).all(|(a, b)| a.get() == Some(*b));
        assert!(same, "{what}");
        table.row_after(
            what,
            args.len(),
            at_a_million(self.times.len(), target),
            || ask(black_box(args), &mut theirs),
            || port::record_ask(many, black_box(&self.image), args, &mut ours),
            || port::record_ask(many, black_box(&self.image), &[], &mut []),
        );
    }
}
