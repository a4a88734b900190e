//! The rows of whole lists: a record made from bits, and items by their prefix sums.

use std::hint::black_box;

use sucds::int_vectors::{Access, PrefixSummedEliasFano};

use crate::port::{self, Answer, FromBits, PORT};
use crate::record::{at_a_million, name};
use crate::table::{is_asked, Table};
use crate::{rust, Random, QUESTIONS};

/// One bit in so many is set.
const RARITY: usize = 16;

/// The largest item.
const LARGEST: usize = 1800;

const FROM_BITS: &str = "from bits with rank";

/// Bits with so many ones, or about, and their image with rank.
pub struct Bits {
    pub words: Vec<u64>,
    pub len: usize,
    pub ones: usize,
    pub n: usize,
    pub image: Vec<u64>,
    make: FromBits,
}

impl Bits {
    /// None where the row is not asked for.
    pub fn asked(n: usize, random: &mut Random) -> Option<Self> {
        is_asked(&name(FROM_BITS, n)).then(|| Self::new(n, RARITY, port::FROM_BITS, random))
    }

    /// One bit in `rarity` is set. What the port makes is compared with the Rust's record of the bits, word for word.
    pub fn new(n: usize, rarity: usize, make: FromBits, random: &mut Random) -> Self {
        let len = n * rarity;
        let mut words = vec![0u64; len.div_ceil(64)];
        let mut ones = 0;
        for i in 0..len {
            if ones < n && random.below(rarity) == 0 {
                words[i / 64] |= 1 << (i % 64);
                ones += 1;
            }
        }
        let image = rust::image_words(&rust::from_bits(&words, len), ones);
        let mut ours = port::lent(len as u64, ones, true, u64::MAX);
        let made = port::from_bits(make, &words, len, &mut ours);
        ours.truncate(made);
        assert_eq!(ours, image, "from bits, {n}");
        Self {
            words,
            len,
            ones,
            n,
            image,
            make,
        }
    }

    pub fn rows(&self, table: &mut Table) {
        self.row(table, &name(FROM_BITS, self.n), rust::from_bits);
    }

    pub fn row<T>(&self, table: &mut Table, what: &str, rust: impl Fn(&[u64], usize) -> T) {
        let mut buffer = port::lent(self.len as u64, self.ones, true, 0);
        table.row(
            what,
            self.ones,
            at_a_million(self.n, 0.15),
            || rust(black_box(&self.words), self.len),
            || port::from_bits(self.make, black_box(&self.words), self.len, &mut buffer),
        );
    }
}

const SUMS: [&str; 3] = [
    "prefix sums build",
    "prefix sums access",
    "prefix sums read",
];

/// Items, and both sides' record of their prefix sums.
pub struct Sums {
    items: Vec<u64>,
    sums: PrefixSummedEliasFano,
    image: Vec<u64>,
    places: Vec<u64>,
}

impl Sums {
    /// None where no row is asked for.
    pub fn new(n: usize, random: &mut Random) -> Option<Self> {
        if !SUMS.iter().any(|row| is_asked(&name(row, n))) {
            return None;
        }
        let items: Vec<u64> = (0..n).map(|_| random.below(LARGEST + 1) as u64).collect();
        let sums = PrefixSummedEliasFano::from_slice(&items).expect("the sum is small");
        let mut image = vec![0; 4 * n + 64];
        let len = port::sums_from_slice(&items, &mut image);
        image.truncate(len);
        let mut read = vec![0; n];
        assert_eq!(port::sums_read(&image, &mut read), n as u64);
        assert_eq!(read, items, "prefix sums, {n}");
        let places = random.places(QUESTIONS, n);
        let places = places.into_iter().map(|p| p as u64).collect();
        Some(Self {
            items,
            sums,
            image,
            places,
        })
    }

    pub fn rows(&self, table: &mut Table) {
        let n = self.items.len();
        let [build, access, read] = SUMS.map(|row| name(row, n));
        let sum: u64 = self.items.iter().sum();
        let mut buffer = port::lent(sum + 1, n, false, 0);
        table.row(
            &build,
            n,
            at_a_million(n, 0.3),
            || PrefixSummedEliasFano::from_slice(black_box(&self.items)),
            || port::sums_from_slice(black_box(&self.items), &mut buffer),
        );
        // the port answers by gaps, of an image that is opened once
        let mut theirs = vec![None; self.places.len()];
        let mut ours = vec![Answer::default(); self.places.len()];
        table.row_after(
            &access,
            self.places.len(),
            None,
            || rust::record_ask(|p| self.sums.access(p as usize), &self.places, &mut theirs),
            || port::record_ask(PORT.deltas, black_box(&self.image), &self.places, &mut ours),
            || port::record_ask(PORT.deltas, black_box(&self.image), &[], &mut []),
        );
        let (mut walked, mut written) = (vec![0; n], vec![0; n]);
        table.row_after(
            &read,
            n,
            None,
            || {
                for (out, x) in walked.iter_mut().zip(self.sums.iter()) {
                    *out = x;
                }
            },
            || port::sums_read(black_box(&self.image), &mut written),
            || port::sums_read(black_box(&self.image), &mut []),
        );
    }
}
