//! The rows of the sparse bit vector: made from bits, asked as a record is, and opened beside the record of the same image.

use std::hint::black_box;

use sucds::bit_vectors::prelude::*;
use sucds::bit_vectors::SArray;

use crate::bulk::Bits;
use crate::port::{self, Answer, SarrayMany, PORT};
use crate::questions::{Questions, Row};
use crate::record::at_a_million;
use crate::table::{is_asked, Table};
use crate::{rust, Random, SIZES};

/// One bit in so many is set.
const RARITY: usize = 64;

const ROWS: [&str; 8] = [
    "from bits",
    "access, hit",
    "access, miss",
    "rank1",
    "select1",
    "predecessor1",
    "successor1",
    "open",
];

/// Both sides' vector of the same bits, with rank.
pub struct Vector {
    bits: Bits,
    sarray: SArray,
    questions: Questions,
}

fn name(row: &str, n: usize) -> String {
    format!("sarray {row}, {n} ones")
}

/// Those of which a row is asked for. The largest size of the record is left out: it would be 2^30 bits.
pub fn vectors(random: &mut Random) -> Vec<Vector> {
    let sizes = SIZES.into_iter().filter(|&n| n <= 1_000_000);
    sizes.filter_map(|n| Vector::new(n, random)).collect()
}

impl Vector {
    /// None where no row is asked for.
    fn new(n: usize, random: &mut Random) -> Option<Self> {
        if !ROWS.iter().any(|row| is_asked(&name(row, n))) {
            return None;
        }
        let bits = Bits::new(n, RARITY, port::SARRAY_FROM_BITS, random);
        assert_eq!(PORT.record_open(&bits.image), 0);
        assert_eq!(port::sarray_open(&bits.image, bits.len), 0);
        let sarray = rust::sarray_from_bits(&bits.words, bits.len);
        let places = rust::bits(&bits.words, bits.len).zip(0..);
        let ones: Vec<u64> = places.filter_map(|(one, p)| one.then_some(p)).collect();
        let questions = Questions::new(&ones, bits.len as u64, random);
        Some(Self {
            bits,
            sarray,
            questions,
        })
    }

    pub fn rows(&self, table: &mut Table) {
        let [from_bits, hit, miss, rank, select, predecessor, successor, _] = ROWS;
        let what = name(from_bits, self.bits.n);
        self.bits.row(table, &what, rust::sarray_from_bits);
        let sarray = &self.sarray;
        let Questions {
            ks,
            values: places,
            hits,
            misses,
            ..
        } = &self.questions;
        let bit = |p| sarray.access(p as usize).map(u64::from);
        self.asked(table, hit, 1.0, hits, port::ACCESSES, bit);
        self.asked(table, miss, 1.0, misses, port::ACCESSES, bit);
        let number = |x: Option<usize>| x.map(|x| x as u64);
        let below = |p| number(sarray.rank1(p as usize));
        self.asked(table, rank, 0.9, places, port::RANK1S, below);
        let one = |k| number(sarray.select1(k as usize));
        self.asked(table, select, 1.0, ks, port::SELECT1S, one);
        let before = |p| number(sarray.predecessor1(p as usize));
        self.asked(table, predecessor, 0.6, places, port::PREDECESSOR1S, before);
        let after = |p| number(sarray.successor1(p as usize));
        self.asked(table, successor, 0.6, places, port::SUCCESSOR1S, after);
    }

    fn asked(
        &self,
        table: &mut Table,
        row: &str,
        target: f64,
        args: &[u64],
        many: SarrayMany,
        one: impl Fn(u64) -> Option<u64>,
    ) {
        let row = Row {
            what: name(row, self.bits.n),
            target: at_a_million(self.bits.n, target),
            image: &self.bits.image,
        };
        let ask = |image: &[u64], args: &[u64], out: &mut [Answer]| {
            port::sarray_ask(many, image, self.bits.len, args, out)
        };
        row.asked_as(table, args.len().into(), args, ask, one, |value| value);
    }

    /// Beside opening the record of the same image, by the port too.
    pub fn opened(&self, table: &mut Table) {
        let [.., open] = ROWS;
        let (image, len) = (&self.bits.image[..], self.bits.len);
        table.row(
            &name(open, self.bits.n),
            self.bits.ones,
            at_a_million(self.bits.n, 1.1),
            || PORT.record_open(black_box(image)),
            || port::sarray_open(black_box(image), len),
        );
    }
}
