//! The rows beside the port of an earlier commit, whose functions have `before_` before their names. Built where bench/run is told of one.

use std::hint::black_box;

use crate::port::{self, linked, Answer, Many, Port, PORT};
use crate::questions::absent;
use crate::record::{self, burner, Record, LONGEST};
use crate::table::{is_asked, Table};
use crate::{rust, Bits, Random, QUESTIONS, SIZES};

const BEFORE: Port = linked!("before_");

/// The words of some bits.
pub fn words(table: &mut Table, b: &Bits) {
    type OfWords = fn(&Port, &[u64]) -> u64;
    let rows: [(&str, OfWords); 2] = [("popcount", Port::popcount), ("msb", Port::msb)];
    for (row, f) in rows {
        let what = format!("{row}, {}", b.name);
        let of = |side| f(side, black_box(&b.words));
        table.same(&what, b.words.len(), None, || of(&BEFORE), || of(&PORT));
    }
}

/// A record pushed, built and opened. What the port before writes is compared, word for word.
pub fn made(table: &mut Table, r: &Record) {
    let (n, u) = (r.times.len(), r.universe);
    let name = |row| record::name(row, n);
    let mut theirs = vec![u64::MAX; r.pushed.len()];
    assert_eq!(BEFORE.record_push(u, &r.times, &mut theirs), n as u64);
    assert!(theirs == r.pushed, "push before, {n} times");
    let pushed = |side: &'static Port| {
        let mut buffer = r.pushed.clone();
        move || side.record_push(u, black_box(&r.times), &mut buffer)
    };
    table.row(&name("push"), n, None, pushed(&BEFORE), pushed(&PORT));
    let image = |side: &Port, rank, mut words: Vec<u64>| {
        let len = side.record_build(u, n, r.last, rank, &mut words);
        words.truncate(len);
        words
    };
    assert!(
        image(&BEFORE, true, theirs) == r.image,
        "image before, {n} times"
    );
    let built = |side: &'static Port| (|| r.pushed.clone(), move |words| image(side, true, words));
    table.row_with(
        &name("build with rank"),
        n,
        None,
        built(&BEFORE),
        built(&PORT),
    );
    let plain = image(&PORT, false, r.pushed.clone());
    for (row, image) in [("open", &plain), ("open with rank", &r.image)] {
        let opened = |side: &Port| side.record_open(black_box(image));
        table.same(&name(row), n, None, || opened(&BEFORE), || opened(&PORT));
    }
}

/// A record walked over and asked.
pub fn questions(table: &mut Table, r: &Record) {
    let n = r.times.len();
    let name = |row| record::name(row, n);
    let walked = |side: &'static Port, steps| move || side.record_walk(black_box(&r.image), steps);
    assert_eq!(walked(&BEFORE, n)(), walked(&PORT, n)());
    table.row_after_both(
        &name("walk"),
        n,
        None,
        (walked(&BEFORE, n), walked(&BEFORE, 0)),
        (walked(&PORT, n), walked(&PORT, 0)),
    );
    let q = &r.questions;
    let mut asked = |row, args: &[u64], many: fn(&Port) -> Many| {
        asked(table, &name(row), None, &r.image, args, many, |value| value);
    };
    asked("select", &q.ks, |side| side.selects);
    asked("delta", &q.ks, |side| side.deltas);
    asked("rank", &q.values, |side| side.ranks);
    asked("predecessor", &q.values, |side| side.predecessors);
    asked("successor", &q.values, |side| side.successors);
}

/// Both ports are asked the same; `seen` is what of an answer is compared. Each opens the image first, which is taken off.
fn asked(
    table: &mut Table,
    what: &str,
    target: Option<f64>,
    image: &[u64],
    args: &[u64],
    many: fn(&Port) -> Many,
    seen: impl Fn(u64) -> u64,
) {
    if !is_asked(what) {
        return;
    }
    let ask = |side: &Port, args: &[u64], out: &mut [Answer]| {
        port::record_ask(many(side), black_box(image), args, out)
    };
    let mut theirs = vec![Answer::default(); args.len()];
    let mut ours = theirs.clone();
    ask(&BEFORE, args, &mut theirs);
    ask(&PORT, args, &mut ours);
    let of = |a: &Answer| a.get().map(&seen);
    assert!(ours.iter().map(of).eq(theirs.iter().map(of)), "{what}");
    table.row_after_both(
        what,
        args.len(),
        target,
        (
            || ask(&BEFORE, args, &mut theirs),
            || ask(&BEFORE, &[], &mut []),
        ),
        (|| ask(&PORT, args, &mut ours), || ask(&PORT, &[], &mut [])),
    );
}

const ROWS: [&str; 2] = ["search, hit", "search, miss"];

/// What a search may cost of what it did.
const TARGET: f64 = 1.15;

/// A list, its image without a rank index, and what is searched in it.
pub struct List {
    name: String,
    times: Vec<u64>,
    image: Vec<u64>,
    hits: Vec<u64>,
    misses: Vec<u64>,
}

/// Each time so often, with as many seconds between two of them as a burner has over as many starts.
fn runs(n: usize, often: usize, random: &mut Random) -> Vec<u64> {
    let mut last = 0;
    let mut times = Vec::with_capacity(n);
    while times.len() < n {
        last += 1 + random.below(LONGEST * often) as u64;
        times.resize(n.min(times.len() + often), last);
    }
    times
}

/// Those of which a row is asked for.
pub fn lists(random: &mut Random) -> Vec<List> {
    let mut lists = vec![];
    for n in SIZES {
        lists.extend(List::new(format!("{n} times"), random, |r| burner(n, r)));
    }
    for often in [2, 100, 1_000, 10_000, 100_000, 250_000, 1_000_000] {
        let name = format!("1000000 times, each {often} times");
        lists.extend(List::new(name, random, |r| runs(1_000_000, often, r)));
    }
    lists
}

impl List {
    /// None where no row is asked for.
    fn new(
        name: String,
        random: &mut Random,
        times: impl Fn(&mut Random) -> Vec<u64>,
    ) -> Option<Self> {
        if !ROWS
            .iter()
            .any(|row| is_asked(&format!("record {row}, {name}")))
        {
            return None;
        }
        let times = times(random);
        let universe = times[times.len() - 1] + 1;
        let record = rust::record_build(rust::record_push(universe, &times), false);
        let image = rust::image_words(&record, times.len());
        let hits = random.places(QUESTIONS, times.len());
        let hits = hits.into_iter().map(|k| times[k]).collect();
        let misses = random.places(QUESTIONS, universe as usize);
        let misses = misses
            .into_iter()
            .filter_map(|v| absent(&times, v as u64))
            .collect();
        Some(Self {
            name,
            times,
            image,
            hits,
            misses,
        })
    }

    /// Among equal times the earlier port may find another than the first: the time at the index is compared.
    pub fn rows(&self, table: &mut Table) {
        let time = |k| self.times[k as usize];
        for (row, args) in ROWS.into_iter().zip([&self.hits, &self.misses]) {
            let what = format!("record {row}, {}", self.name);
            asked(
                table,
                &what,
                Some(TARGET),
                &self.image,
                args,
                |side| side.binsearches,
                time,
            );
        }
    }
}
