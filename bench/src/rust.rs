//! The same loops over the calls of the crate sucds.

use sucds::bit_vectors::darray::inner::DArrayIndex;
use sucds::bit_vectors::prelude::*;
use sucds::bit_vectors::{BitVector, SArray};
use sucds::broadword;
use sucds::mii_sequences::{EliasFano, EliasFanoBuilder};

fn total(places: impl Iterator<Item = usize>) -> u64 {
    places.fold(0, |sum: u64, p| sum.wrapping_add(p as u64))
}

#[inline(never)]
pub fn popcount(words: &[u64]) -> u64 {
    total(words.iter().map(|&w| broadword::popcount(w)))
}

#[inline(never)]
pub fn lsb(words: &[u64]) -> u64 {
    total(words.iter().map(|&w| broadword::lsb(w).unwrap_or(64)))
}

#[inline(never)]
pub fn msb(words: &[u64]) -> u64 {
    total(words.iter().map(|&w| broadword::msb(w).unwrap_or(64)))
}

#[inline(never)]
pub fn select_in_word(words: &[u64], ks: &[usize]) -> u64 {
    total(
        words
            .iter()
            .zip(ks)
            .map(|(&w, &k)| broadword::select_in_word(w, k).unwrap_or(64)),
    )
}

#[inline(never)]
pub fn rank1(bv: &BitVector, places: &[usize]) -> u64 {
    total(places.iter().map(|&p| bv.rank1(p).unwrap_or(bv.len())))
}

#[inline(never)]
pub fn select1(bv: &BitVector, ks: &[usize]) -> u64 {
    total(ks.iter().map(|&k| bv.select1(k).unwrap_or(bv.len())))
}

#[inline(never)]
pub fn predecessor1(bv: &BitVector, places: &[usize]) -> u64 {
    total(
        places
            .iter()
            .map(|&p| bv.predecessor1(p).unwrap_or(bv.len())),
    )
}

/// The Rust has none from the length on: what its user writes for the last one.
#[inline(never)]
pub fn predecessor1_or_last(bv: &BitVector, places: &[usize]) -> u64 {
    total(
        places
            .iter()
            .map(|&p| bv.predecessor1(p.min(bv.len() - 1)).unwrap_or(bv.len())),
    )
}

#[inline(never)]
pub fn walk(bv: &BitVector) -> u64 {
    total(bv.unary_iter(0))
}

#[inline(never)]
pub fn build(bv: &BitVector, over_one: bool) -> DArrayIndex {
    DArrayIndex::new(bv, over_one)
}

#[inline(never)]
pub fn select(bv: &BitVector, index: &DArrayIndex, ks: &[usize]) -> u64 {
    // SAFETY: the driver passes the bit vector that the index was built from.
    total(
        ks.iter()
            .map(|&k| unsafe { index.select(bv, k) }.unwrap_or(bv.len())),
    )
}

/// The index as the port writes it: entries, distances four to a word, overflow positions.
pub fn index_words(index: &DArrayIndex) -> Vec<u64> {
    let entries = index.block_inventory.iter().map(|&e| e as u64);
    let lanes = index.subblock_inventory.chunks(4).map(|four| {
        let lane = |(i, &x): (usize, &u16)| u64::from(x) << (16 * i);
        four.iter().enumerate().map(lane).sum()
    });
    entries
        .chain(lanes)
        .chain(index.overflow_positions.iter().copied())
        .collect()
}

#[inline(never)]
pub fn record_push(universe: u64, times: &[u64]) -> EliasFanoBuilder {
    let mut b = EliasFanoBuilder::new(universe, times.len()).expect("some times");
    for &t in times {
        b.push(t).expect("times in order below the universe");
    }
    b
}

/// The builder can be used up once.
pub fn copy(b: &EliasFanoBuilder) -> EliasFanoBuilder {
    EliasFanoBuilder {
        high_bits: b.high_bits.clone(),
        low_bits: b.low_bits.clone(),
        ..*b
    }
}

#[inline(never)]
pub fn record_build(b: EliasFanoBuilder, rank: bool) -> EliasFano {
    let ef = b.build();
    if rank {
        ef.enable_rank()
    } else {
        ef
    }
}

/// The bits as the Rust takes them.
pub fn bits(words: &[u64], len: usize) -> impl Iterator<Item = bool> + '_ {
    (0..len).map(|i| words[i / 64] >> (i % 64) & 1 == 1)
}

#[inline(never)]
pub fn from_bits(words: &[u64], len: usize) -> EliasFano {
    EliasFano::from_bits(bits(words, len))
        .expect("some bits are set")
        .enable_rank()
}

#[inline(never)]
pub fn sarray_from_bits(words: &[u64], len: usize) -> SArray {
    SArray::from_bits(bits(words, len)).enable_rank()
}

/// Each answer goes to the lent words, as the port's do.
#[inline(never)]
pub fn record_ask(ask: impl Fn(u64) -> Option<u64>, args: &[u64], out: &mut [Option<u64>]) {
    for (&x, out) in args.iter().zip(out) {
        *out = ask(x);
    }
}

#[inline(never)]
pub fn record_walk(ef: &EliasFano, steps: usize) -> u64 {
    ef.iter(0).take(steps).fold(0, u64::wrapping_add)
}

/// How many times of the spans, two words each, are in the windows, in all: from the rank of a span's beginning on, each time by all windows.
#[inline(never)]
pub fn count_in_windows(ef: &EliasFano, windows: &[u64], spans: &[u64]) -> u64 {
    let inside = |t: u64| {
        let second = t % 604_800;
        windows
            .chunks_exact(2)
            .any(|w| w[0] <= second && second < w[1])
    };
    let count = |span: &[u64]| {
        let first = ef.rank(span[0]).unwrap_or(ef.len());
        ef.iter(first)
            .take_while(|&t| t < span[1])
            .filter(|&t| inside(t))
            .count() as u64
    };
    spans.chunks_exact(2).map(count).sum()
}

/// Of each span between two neighbouring seconds the number of times, the first, the last and the shortest gap, summed: from the rank of its beginning on.
#[inline(never)]
pub fn compare_spans(ef: &EliasFano, seconds: &[u64]) -> u64 {
    let summary = |span: &[u64]| {
        let from = ef.rank(span[0]).unwrap_or(ef.len());
        let (mut count, mut first, mut last, mut gap) = (0u64, 0, 0, 0);
        for t in ef.iter(from).take_while(|&t| t < span[1]) {
            match count {
                0 => first = t,
                1 => gap = t - last,
                _ => gap = gap.min(t - last),
            }
            last = t;
            count += 1;
        }
        count.wrapping_add(first).wrapping_add(last).wrapping_add(gap)
    };
    seconds.windows(2).map(summary).fold(0, u64::wrapping_add)
}

/// How many times from the first on were written.
#[inline(never)]
pub fn record_read(ef: &EliasFano, out: &mut [u64]) -> u64 {
    let mut read = 0;
    for (out, t) in out.iter_mut().zip(ef.iter(0)) {
        *out = t;
        read += 1;
    }
    read
}

/// The record as the port writes it: the header, the high words, the low words, the indexes. The Rust does not keep the declared count.
pub fn image_words(ef: &EliasFano, declared: usize) -> Vec<u64> {
    let high = &ef.high_bits;
    let zeros = high.s0_index();
    let overflow = |index: &DArrayIndex| index.overflow_positions.len() as u64;
    let header = [
        ef.universe(),
        declared as u64,
        ef.len() as u64,
        u64::from(ef.has_rank()),
        overflow(high.s1_index()),
        zeros.map_or(0, overflow),
    ];
    [
        &header[..],
        high.bit_vector().words(),
        ef.low_bits.words(),
        &index_words(high.s1_index()),
        &zeros.map_or(vec![], index_words),
    ]
    .concat()
}
