//! Times the port beside the crate sucds on the same words, compares what they answer, and prints a table.

#[cfg(feature = "before")]
mod before;
mod bulk;
mod port;
mod questions;
mod record;
mod rust;
mod sarray;
#[cfg(feature = "sdsl")]
mod sdsl;
mod spans;
mod table;
mod windows;

use std::hint::black_box;

use sucds::bit_vectors::BitVector;

use port::PORT;
use questions::Equal;
use record::Record;
use table::Table;

const SEED: u64 = 0x9E37_79B9_7F4A_7C15;

/// How often all rows are run: what else the machine does slows some rounds and not others.
const ROUNDS: usize = 8;

struct Random(u64);

impl Random {
    fn next(&mut self) -> u64 {
        self.0 ^= self.0 << 13;
        self.0 ^= self.0 >> 7;
        self.0 ^= self.0 << 17;
        self.0.wrapping_mul(0x2545_F491_4F6C_DD1D)
    }

    fn below(&mut self, n: usize) -> usize {
        ((u128::from(self.next()) * n as u128) >> 64) as usize
    }

    fn places(&mut self, n: usize, below: usize) -> Vec<usize> {
        (0..n).map(|_| self.below(below)).collect()
    }

    /// So many times with gaps of up to so many seconds.
    fn times(&mut self, n: usize, gap: usize) -> Vec<u64> {
        let mut last = 0;
        let next = |_| {
            last += self.below(gap + 1) as u64;
            last
        };
        (0..n).map(next).collect()
    }
}

/// A bit vector, the same words beside it, and its number of ones.
struct Bits {
    name: &'static str,
    words: Vec<u64>,
    len: usize,
    ones: usize,
    bv: BitVector,
}

impl Bits {
    /// Each bit is set with the chance 1 in `rarity`.
    fn new(name: &'static str, len: usize, rarity: usize, random: &mut Random) -> Self {
        let mut words = vec![0u64; len.div_ceil(64)];
        for i in 0..len {
            if random.below(rarity) == 0 {
                words[i / 64] |= 1 << (i % 64);
            }
        }
        Self::of(name, words, len)
    }

    fn of(name: &'static str, words: Vec<u64>, len: usize) -> Self {
        let ones = words.iter().map(|w| w.count_ones() as usize).sum();
        let bv = BitVector {
            words: words.clone().into(),
            len,
        };
        Self {
            name,
            words,
            len,
            ones,
            bv,
        }
    }
}

/// Bits of which one in so many is set.
const DENSITIES: [(&str, usize); 2] = [("half ones", 2), ("ones 1 in 64", 64)];

fn in_words(table: &mut Table, b: &Bits, random: &mut Random) {
    let (w, n) = (&b.words[..], b.words.len());
    let name = |f: &str| format!("{f}, {}", b.name);
    let ks: Vec<usize> = w
        .iter()
        .map(|w| random.below(w.count_ones().max(1) as usize))
        .collect();
    table.same(
        &name("popcount"),
        n,
        Some(1.1),
        || rust::popcount(black_box(w)),
        || PORT.popcount(black_box(w)),
    );
    table.same(
        &name("lsb"),
        n,
        Some(1.1),
        || rust::lsb(black_box(w)),
        || port::lsb(black_box(w)),
    );
    table.same(
        &name("msb"),
        n,
        Some(1.1),
        || rust::msb(black_box(w)),
        || PORT.msb(black_box(w)),
    );
    let select = || rust::select_in_word(black_box(w), &ks);
    let lent = || port::select_in_word_by(black_box(w), &ks);
    table.same(
        &name("select_in_word, table lent"),
        n,
        Some(1.1),
        select,
        lent,
    );
    let made = || port::select_in_word(black_box(w), &ks);
    table.same(
        &name("select_in_word, table made at each call"),
        n,
        None,
        select,
        made,
    );
}

fn in_bits(table: &mut Table, b: &Bits, queries: usize, random: &mut Random) {
    let (w, len) = (&b.words[..], b.len);
    let name = |f: &str| format!("{f}, {} bits, {}", b.len, b.name);
    let places = random.places(queries, b.len + 1);
    let ks = random.places(queries, b.ones);
    let rank = || rust::rank1(black_box(&b.bv), &places);
    table.same(&name("rank1"), queries, Some(1.1), rank, || {
        port::rank1(black_box(w), len, &places)
    });
    let select = || rust::select1(black_box(&b.bv), &ks);
    table.same(&name("select1"), queries, None, select, || {
        port::select1(black_box(w), len, &ks)
    });
    let below: Vec<usize> = places.iter().map(|&p| p.min(len - 1)).collect();
    let predecessor = || rust::predecessor1(black_box(&b.bv), &below);
    table.same(&name("predecessor1"), queries, None, predecessor, || {
        port::predecessor1(black_box(w), len, &below)
    });
    last_one(table, b, &places);
}

/// The places are counted from the length on.
fn last_one(table: &mut Table, b: &Bits, places: &[usize]) {
    let past: Vec<usize> = places.iter().map(|&p| b.len + p).collect();
    table.same(
        &format!(
            "predecessor1 from the length on, {} bits, {}",
            b.len, b.name
        ),
        past.len(),
        None,
        || rust::predecessor1_or_last(black_box(&b.bv), &past),
        || port::predecessor1(black_box(&b.words), b.len, &past),
    );
}

fn walk(table: &mut Table, b: &Bits) {
    let what = format!("walk, {}", b.name);
    let port = || port::walk(black_box(&b.words), b.len);
    table.same(
        &what,
        b.ones,
        Some(1.1),
        || rust::walk(black_box(&b.bv)),
        port,
    );
}

fn index(table: &mut Table, b: &Bits, over_one: bool, queries: usize, random: &mut Random) {
    let (w, len) = (&b.words[..], b.len);
    let over = if over_one { "ones" } else { "zeros" };
    let positions = if over_one { b.ones } else { len - b.ones };
    let mut out = vec![0u64; positions + positions / 32 + 4];
    let made = port::build(w, len, over_one, &mut out);
    let theirs = rust::build(&b.bv, over_one);
    assert_eq!(
        out[..made],
        rust::index_words(&theirs)[..],
        "index over {over}, {}",
        b.name
    );
    table.row(
        &format!("index build over {over}, {}", b.name),
        positions,
        Some(1.0),
        || rust::build(black_box(&b.bv), over_one),
        || port::build(black_box(w), len, over_one, &mut out),
    );
    let ks = random.places(queries, positions);
    let index = &out[..made];
    table.same(
        &format!("index select over {over}, {}", b.name),
        queries,
        Some(1.1),
        || rust::select(black_box(&b.bv), &theirs, &ks),
        // SAFETY: `index` is what was built above.
        || unsafe { port::select(black_box(w), len, over_one, index, positions, &ks) },
    );
}

fn round(table: &mut Table) {
    let random = &mut Random(SEED);
    for (name, rarity) in DENSITIES {
        in_words(table, &Bits::new(name, 1 << 20, rarity, random), random);
    }
    for (name, rarity) in DENSITIES {
        in_bits(table, &Bits::new(name, 4086, rarity, random), 1000, random);
        in_bits(
            table,
            &Bits::new(name, (1 << 20) + 10, rarity, random),
            100,
            random,
        );
    }
    let mut words = vec![0; (1 << 14) + 1];
    words[0] = 1;
    let far = Bits::of("one at 0", words, (1 << 20) + 10);
    last_one(table, &far, &[0; 100]);
    for (name, len, rarity) in [
        ("half ones", (1 << 22) + 10, 2),
        ("ones 1 in 16", (1 << 22) + 10, 16),
        ("ones 1 in 64", (1 << 22) + 10, 64),
        ("ones 1 in 1000", (1 << 24) + 10, 1000),
    ] {
        let b = Bits::new(name, len, rarity, random);
        walk(table, &b);
        index(table, &b, true, 20_000, random);
        if rarity == 2 {
            index(table, &b, false, 20_000, random);
        }
    }
}

/// How often an image is asked.
const QUESTIONS: usize = 1_000_000;

const SIZES: [usize; 4] = [1000, 100_000, 1_000_000, 16_777_216];

fn main() {
    let mut table = Table::new("Rust");
    let random = &mut Random(SEED);
    let records: Vec<Record> = SIZES
        .into_iter()
        .filter_map(|n| Record::new(n, random))
        .collect();
    let equal = Equal::new();
    let bits: Vec<bulk::Bits> = SIZES
        .into_iter()
        .filter_map(|n| bulk::Bits::asked(n, random))
        .collect();
    let sums: Vec<bulk::Sums> = SIZES
        .into_iter()
        .filter_map(|n| bulk::Sums::new(n, random))
        .collect();
    let vectors = sarray::vectors(random);
    // From the seed again, so that the inputs of the other rows are as they were.
    let counted = windows::lists(&mut Random(SEED));
    let cut = spans::lists(&mut Random(SEED));
    for _ in 0..ROUNDS {
        round(&mut table);
        records.iter().for_each(|r| r.rows(&mut table));
        equal.iter().for_each(|e| e.row(&mut table));
        bits.iter().for_each(|b| b.rows(&mut table));
        sums.iter().for_each(|s| s.rows(&mut table));
        vectors.iter().for_each(|v| v.rows(&mut table));
        counted.iter().for_each(|c| c.rows(&mut table));
        cut.iter().for_each(|c| c.rows(&mut table));
    }
    table.print();
    further("record", |table| {
        vectors.iter().for_each(|v| v.opened(table))
    });
    further("walk", |table| {
        counted.iter().for_each(|c| c.walked(table));
        cut.iter().for_each(|c| c.walked(table));
    });
    second_peer(random);
    earlier_port(&records, random);
}

/// A table beside another peer than the Rust.
fn further(peer: &'static str, rows: impl Fn(&mut Table)) {
    let mut table = Table::new(peer);
    for _ in 0..ROUNDS {
        rows(&mut table);
    }
    println!();
    table.print();
}

#[cfg(feature = "sdsl")]
fn second_peer(random: &mut Random) {
    let lists: Vec<sdsl::Strict> = SIZES
        .into_iter()
        .filter_map(|n| sdsl::Strict::new(n, random))
        .collect();
    further("sdsl", |table| lists.iter().for_each(|l| l.rows(table)));
}

#[cfg(not(feature = "sdsl"))]
fn second_peer(_: &mut Random) {}

#[cfg(feature = "before")]
fn earlier_port(records: &[Record], random: &mut Random) {
    let bits = DENSITIES.map(|(name, rarity)| Bits::new(name, 1 << 20, rarity, random));
    let lists = before::lists(random);
    further("before", |table| {
        bits.iter().for_each(|b| before::words(table, b));
        records.iter().for_each(|r| before::made(table, r));
        records.iter().for_each(|r| before::questions(table, r));
        lists.iter().for_each(|l| l.rows(table));
    });
}

#[cfg(not(feature = "before"))]
fn earlier_port(_: &[Record], _: &mut Random) {}
