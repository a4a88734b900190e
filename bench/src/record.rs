//! The rows of the record: a burner's times pushed, built and opened; what is asked of it is in questions.rs.

use std::hint::black_box;

use sucds::mii_sequences::{EliasFano, EliasFanoBuilder};

use crate::port::{self, PORT};
use crate::questions::{self, Questions};
use crate::table::{is_asked, Table};
use crate::{rust, Random};

/// The longest time between two readings, in seconds.
pub const LONGEST: usize = 1800;

const ROWS: [&str; 5] = [
    "push",
    "build",
    "build with rank",
    "build with rank and no word to spare",
    "open with rank",
];

/// Both sides' record of one list.
pub struct Record {
    pub times: Vec<u64>,
    pub last: u64,
    pub universe: u64,
    builder: EliasFanoBuilder,
    record: EliasFano,
    pub pushed: Vec<u64>,
    pub image: Vec<u64>,
    pub questions: Questions,
}

/// Times in order, with gaps of a burner.
pub fn burner(n: usize, random: &mut Random) -> Vec<u64> {
    let gap = |last: &mut u64, _| {
        *last += random.below(LONGEST + 1) as u64;
        Some(*last)
    };
    (0..n).scan(0, gap).collect()
}

pub fn name(row: &str, n: usize) -> String {
    format!("record {row}, {n} times")
}

/// The targets are for a million times.
pub fn at_a_million(n: usize, target: f64) -> Option<f64> {
    (n == 1_000_000).then_some(target)
}

impl Record {
    /// None where no row is asked for. What both sides write is compared, word for word.
    pub fn new(n: usize, random: &mut Random) -> Option<Self> {
        if !ROWS
            .iter()
            .chain(&questions::ROWS)
            .any(|row| is_asked(&name(row, n)))
        {
            return None;
        }
        let times = burner(n, random);
        let last = times[n - 1];
        let universe = last + 1;

        let builder = rust::record_push(universe, &times);
        let plain = rust::record_build(rust::copy(&builder), false);
        let record = rust::record_build(rust::copy(&builder), true);
        let image = rust::image_words(&record, n);

        let mut pushed = port::lent(universe, n, true, u64::MAX);
        assert_eq!(PORT.record_push(universe, &times, &mut pushed), n as u64);
        let (high, low) = (builder.high_bits.words(), builder.low_bits.words());
        let filed = [&[0; 6], high, low].concat();
        assert_eq!(pushed[..filed.len()], filed, "push, {n} times");
        for (record, rank) in [(&plain, false), (&record, true)] {
            let mut words = pushed.clone();
            let made = PORT.record_build(universe, n, last, rank, &mut words);
            words.truncate(made);
            assert_eq!(
                words,
                rust::image_words(record, n),
                "rank {rank}, {n} times"
            );
        }
        assert_eq!(PORT.record_open(&image), 0);

        let questions = Questions::new(&times, universe, random);
        Some(Self {
            times,
            last,
            universe,
            builder,
            record,
            pushed,
            image,
            questions,
        })
    }

    pub fn rows(&self, table: &mut Table) {
        let n = self.times.len();
        let [push, build, build_ranked, build_exactly, open] = ROWS.map(|row| name(row, n));
        let mut buffer = self.pushed.clone();
        table.row_with(
            &push,
            n,
            at_a_million(n, 0.6),
            (
                || (),
                |()| rust::record_push(self.universe, black_box(&self.times)),
            ),
            (
                || (),
                |()| PORT.record_push(self.universe, black_box(&self.times), &mut buffer),
            ),
        );
        let rust_build = |rank| {
            (
                || rust::copy(&self.builder),
                move |b| rust::record_build(b, rank),
            )
        };
        let port_build = |rank, words| {
            (
                move || self.pushed[..words].to_vec(),
                move |mut words: Vec<u64>| {
                    PORT.record_build(self.universe, n, self.last, rank, &mut words);
                    words
                },
            )
        };
        let (enough, exactly) = (self.pushed.len(), self.image.len());
        table.row_with(
            &build,
            n,
            None,
            rust_build(false),
            port_build(false, enough),
        );
        table.row_with(
            &build_ranked,
            n,
            at_a_million(n, 0.05),
            rust_build(true),
            port_build(true, enough),
        );
        table.row_with(
            &build_exactly,
            n,
            None,
            rust_build(true),
            port_build(true, exactly),
        );
        table.row_with(
            &open,
            n,
            at_a_million(n, 0.1),
            rust_build(true),
            (|| (), |()| PORT.record_open(black_box(&self.image))),
        );
        self.questions
            .rows(table, &self.times, &self.record, &self.image);
    }
}
