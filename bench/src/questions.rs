//! The rows of the questions: one image, opened once, is asked many times at random, or walked over from the first time on.

use std::hint::black_box;

use sucds::mii_sequences::EliasFano;

use crate::port::{self, Answer, Many, PORT};
use crate::record::{at_a_million, name};
use crate::table::{is_asked, Items, Table};
use crate::{rust, Random, QUESTIONS};

pub const ROWS: [&str; 10] = [
    "select",
    "delta",
    "rank",
    "predecessor",
    "predecessor from u on",
    "successor",
    "search, hit",
    "search, miss",
    "walk",
    "read_from",
];

/// What is asked: numbers, values below the universe and from it on, values that are there and values that are not.
pub struct Questions {
    pub ks: Vec<u64>,
    pub values: Vec<u64>,
    pub past: Vec<u64>,
    pub hits: Vec<u64>,
    pub misses: Vec<u64>,
}

/// A value that is there is moved on to one that is not.
pub fn absent(times: &[u64], v: u64) -> Option<u64> {
    (v..).find(|v| times.binary_search(v).is_err())
}

impl Questions {
    pub fn new(times: &[u64], universe: u64, random: &mut Random) -> Self {
        let (n, u) = (times.len(), universe as usize);
        let mut some = |below| -> Vec<u64> {
            let places = random.places(QUESTIONS, below);
            places.into_iter().map(|p| p as u64).collect()
        };
        let (ks, values, places) = (some(n), some(u), some(n));
        let past = values.iter().map(|v| universe + v).collect();
        let hits = places.iter().map(|&k| times[k as usize]).collect();
        let misses = values.iter().filter_map(|&v| absent(times, v)).collect();
        Self {
            ks,
            values,
            past,
            hits,
            misses,
        }
    }

    pub fn rows(&self, table: &mut Table, times: &[u64], ef: &EliasFano, image: &[u64]) {
        let n = times.len();
        let row = |row, target: Option<f64>| Row {
            what: name(row, n),
            target: target.and_then(|target| at_a_million(n, target)),
            image,
        };
        let number = |k: Option<usize>| k.map(|k| k as u64);
        let [select, delta, rank, predecessor, last, successor, hit, miss, walk, read] = ROWS;
        row(select, Some(1.0)).asked(table, &self.ks, PORT.selects, |k| ef.select(k as usize));
        row(delta, Some(0.8)).asked(table, &self.ks, PORT.deltas, |k| ef.delta(k as usize));
        row(rank, Some(0.9)).asked(table, &self.values, PORT.ranks, |v| number(ef.rank(v)));
        let before = |v| ef.predecessor(v);
        row(predecessor, Some(0.6)).asked(table, &self.values, PORT.predecessors, before);
        // The Rust has none from the universe on: its user asks for the last time there.
        let at_or_before = |v| {
            if v < ef.universe() {
                ef.predecessor(v)
            } else {
                ef.select(black_box(ef.len() - 1))
            }
        };
        row(last, None).asked(table, &self.past, PORT.predecessors, at_or_before);
        let after = |v| ef.successor(v);
        row(successor, Some(0.6)).asked(table, &self.values, PORT.successors, after);
        let search = |v| number(ef.binsearch(v));
        row(hit, Some(0.9)).searched(table, times, &self.hits, search);
        row(miss, Some(0.9)).searched(table, times, &self.misses, search);
        row(walk, Some(1.0)).walked(table, n, ef);
        row(read, None).read(table, n, ef);
    }
}

/// Asks a record, by its image, the arguments and the words for the answers.
fn of_record(many: Many) -> impl Fn(&[u64], &[u64], &mut [Answer]) -> u64 {
    move |image, args, out| port::record_ask(many, image, args, out)
}

pub struct Row<'a> {
    pub what: String,
    pub target: Option<f64>,
    pub image: &'a [u64],
}

impl Row<'_> {
    fn asked(&self, table: &mut Table, args: &[u64], many: Many, one: impl Fn(u64) -> Option<u64>) {
        let ask = of_record(many);
        self.asked_as(table, args.len().into(), args, ask, one, |value| value);
    }

    /// Among equal times the Rust may find another than the first: the time at the index is compared.
    fn searched(
        &self,
        table: &mut Table,
        times: &[u64],
        args: &[u64],
        one: impl Fn(u64) -> Option<u64>,
    ) {
        let time = |k| times[k as usize];
        let ask = of_record(PORT.binsearches);
        self.asked_as(table, args.len().into(), args, ask, one, time);
    }

    /// Each side writes its answers to words that it is lent; the port opens the image first, which is taken off. The Rust is asked only the first
    /// questions where it takes too long. `seen` is what of an answer is compared.
    pub fn asked_as(
        &self,
        table: &mut Table,
        items: Items,
        args: &[u64],
        ask: impl Fn(&[u64], &[u64], &mut [Answer]) -> u64,
        one: impl Fn(u64) -> Option<u64>,
        seen: impl Fn(u64) -> u64,
    ) {
        if !is_asked(&self.what) {
            return;
        }
        let few = &args[..items.peer];
        let mut theirs = vec![None; items.peer];
        let mut ours = vec![Answer::default(); args.len()];
        rust::record_ask(&one, few, &mut theirs);
        ask(self.image, args, &mut ours);
        let same = |(a, b): (&Answer, &Option<u64>)| a.get().map(&seen) == b.map(&seen);
        assert!(ours.iter().zip(&theirs).all(same), "{}", self.what);
        table.row_after(
            &self.what,
            items,
            self.target,
            || rust::record_ask(&one, black_box(few), &mut theirs),
            || ask(black_box(self.image), args, &mut ours),
            || ask(black_box(self.image), &[], &mut []),
        );
    }

    fn walked(&self, table: &mut Table, n: usize, ef: &EliasFano) {
        let rust = || rust::record_walk(black_box(ef), n);
        let port = || PORT.record_walk(black_box(self.image), n);
        assert_eq!(rust(), port(), "{}", self.what);
        let before = || PORT.record_walk(black_box(self.image), 0);
        table.row_after(&self.what, n, self.target, rust, port, before);
    }

    fn read(&self, table: &mut Table, n: usize, ef: &EliasFano) {
        if !is_asked(&self.what) {
            return;
        }
        let (mut theirs, mut ours) = (vec![0; n], vec![0; n]);
        rust::record_read(ef, &mut theirs);
        port::record_read(self.image, &mut ours);
        assert_eq!(theirs, ours, "{}", self.what);
        table.row_after(
            &self.what,
            n,
            self.target,
            || rust::record_read(black_box(ef), &mut theirs),
            || port::record_read(black_box(self.image), &mut ours),
            || port::record_read(black_box(self.image), &mut []),
        );
    }
}

/// A record of a million equal times, asked for the rank of that time: the Rust passes over all of them.
pub struct Equal {
    ef: EliasFano,
    image: Vec<u64>,
}

const EQUAL: &str = "record rank, 1000000 equal times";

impl Equal {
    /// None where the row is not asked for.
    pub fn new() -> Option<Self> {
        if !is_asked(EQUAL) {
            return None;
        }
        let times = vec![500_000_000; 1_000_000];
        let ef = rust::record_build(rust::record_push(1_000_000_000, &times), true);
        let image = rust::image_words(&ef, times.len());
        Some(Self { ef, image })
    }

    pub fn row(&self, table: &mut Table) {
        let row = Row {
            what: EQUAL.into(),
            target: Some(0.001),
            image: &self.image,
        };
        let items = Items {
            peer: 10,
            port: 100_000,
        };
        let rank = |v| self.ef.rank(v).map(|k| k as u64);
        let args = vec![500_000_000; 100_000];
        row.asked_as(table, items, &args, of_record(PORT.ranks), rank, |k| k);
    }
}
