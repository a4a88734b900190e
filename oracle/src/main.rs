//! The crate sucds behind a line protocol: one command a line, one answer a line.
//!
//! A thin shell. It answers what the Rust does and refuses nothing of its own: an error is `error KIND`, a panic `panic`,
//! and where the Rust has no such value to call, `no vector`, `no builder`, `no record`. What would ask the allocator for
//! more than `MOST` bits is not run, since a failed allocation ends the program: `not run`.

use std::io::{self, BufRead, Write};
use std::panic::{self, AssertUnwindSafe};

use sucds::bit_vectors::bit_vector::unary::UnaryIter;
use sucds::bit_vectors::darray::inner::DArrayIndex;
use sucds::bit_vectors::{Access as _, BitVector, Rank, SArray, Select};
use sucds::broadword;
use sucds::int_vectors::{Access as _, PrefixSummedEliasFano};
use sucds::mii_sequences::{EliasFano, EliasFanoBuilder};
use sucds::SucdsError;

const MOST: u64 = 1 << 28;

/// What the commands work on.
#[derive(Default)]
struct Held {
    /// None where the Rust has no such vector: too few words, or padding set.
    bits: Option<BitVector>,
    builder: Option<EliasFanoBuilder>,
    /// The record, in the type that prefix sums have; None before the first and for no items.
    record: Option<PrefixSummedEliasFano>,
    /// The declared count of the record, which the Rust does not keep.
    declared: usize,
    sparse: SArray,
}

/// None is a command out of form.
type Answer = Option<String>;

fn main() {
    panic::set_hook(Box::new(|_| {}));
    let mut held = Held {
        bits: Some(BitVector::new()),
        ..Held::default()
    };
    let mut out = io::BufWriter::new(io::stdout().lock());
    for line in io::stdin().lock().lines() {
        let line = line.expect("a line of text");
        if line.is_empty() || line.starts_with('#') {
            continue;
        }
        let answer = panic::catch_unwind(AssertUnwindSafe(|| answer(&mut held, &line)));
        let text = match answer {
            Ok(Some(text)) => text,
            Ok(None) => "bad command".to_string(),
            Err(_) => "panic".to_string(),
        };
        writeln!(out, "{text}").expect("standard output");
    }
}

fn answer(held: &mut Held, line: &str) -> Answer {
    let mut words = line.split(' ');
    let name = words.next()?;
    if name == "unary" {
        return unary(held, words);
    }
    let args = words.map(number).collect::<Option<Vec<u64>>>()?;
    on_words(name, &args)
        .or_else(|| on_bits(held, name, &args))
        .or_else(|| on_build(held, name, &args))
        .or_else(|| on_record(held, name, &args))
        .or_else(|| on_sparse(held, name, &args))
}

// Words.

fn on_words(name: &str, args: &[u64]) -> Answer {
    Some(match (name, args) {
        ("popcount", &[w]) => broadword::popcount(w).to_string(),
        ("lsb", &[w]) => maybe(broadword::lsb(w)),
        ("msb", &[w]) => maybe(broadword::msb(w)),
        ("select_in_word", &[w, k]) => maybe(broadword::select_in_word(w, k as usize)),
        ("leq_step_8", &[x, y]) => broadword::leq_step_8(x, y).to_string(),
        ("uleq_step_8", &[x, y]) => broadword::uleq_step_8(x, y).to_string(),
        ("uleq_step_9", &[x, y]) => broadword::uleq_step_9(x, y).to_string(),
        ("byte_counts", &[x]) => broadword::byte_counts(x).to_string(),
        ("bytes_sum", &[x]) => broadword::bytes_sum(x).to_string(),
        ("bit_position", &[x]) => broadword::bit_position(x).to_string(),
        ("SELECT_IN_BYTE", &[]) => list(&broadword::SELECT_IN_BYTE),
        ("DEBRUIJN64_MAPPING", &[]) => list(&broadword::DEBRUIJN64_MAPPING),
        _ => return None,
    })
}

// Bits.

fn on_bits(held: &mut Held, name: &str, args: &[u64]) -> Answer {
    match (name, args) {
        ("bits", &[len, ref words @ ..]) => {
            held.bits = vector(len, words);
            return ok();
        }
        ("from_bit", &[bit, len]) => {
            let bit = choice(bit)?;
            if MOST < len {
                return Some("not run".to_string());
            }
            held.bits = Some(BitVector::from_bit(bit, len as usize));
            return ok();
        }
        _ => {}
    }
    let known = matches!(
        (name, args.len()),
        ("dump" | "num_ones", 0)
            | (
                "push_bit" | "get_word64" | "access" | "rank1" | "select1" | "select0",
                1
            )
            | ("predecessor1" | "index" | "validate", 1)
            | ("set_bit" | "push_bits" | "get_bits" | "index_select", 2)
    );
    if !known {
        return None;
    }
    let Some(bits) = &mut held.bits else {
        return Some("no vector".to_string());
    };
    Some(match (name, args) {
        ("dump", _) => with_words(&[bits.len() as u64], bits.words()),
        ("set_bit", &[p, b]) => done(bits.set_bit(p as usize, choice(b)?)),
        ("push_bit", &[b]) => {
            bits.push_bit(choice(b)?);
            return ok();
        }
        ("push_bits", &[v, width]) => done(bits.push_bits(v, width as usize)),
        ("get_bits", &[p, width]) => maybe(bits.get_bits(p as usize, width as usize)),
        ("get_word64", &[p]) => maybe(bits.get_word64(p as usize)),
        ("access", &[p]) => maybe(bits.access(p as usize).map(u8::from)),
        ("rank1", &[p]) => maybe(bits.rank1(p as usize)),
        ("select1", &[k]) => maybe(bits.select1(k as usize)),
        ("select0", &[k]) => maybe(bits.select0(k as usize)),
        ("predecessor1", &[p]) => maybe(bits.predecessor1(p as usize)),
        ("num_ones", _) => bits.num_ones().to_string(),
        ("index", &[b]) => index(&DArrayIndex::new(bits, choice(b)?)),
        ("validate", &[b]) => {
            let over_one = choice(b)?;
            done(DArrayIndex::new(bits, over_one).validate(bits, over_one))
        }
        ("index_select", &[b, k]) => {
            let index = DArrayIndex::new(bits, choice(b)?);
            // The index is that of these bits.
            maybe(unsafe { index.select(bits, k as usize) })
        }
        _ => return None,
    })
}

/// The vector of the first `len` bits, if the Rust can hold it.
fn vector(len: u64, words: &[u64]) -> Option<BitVector> {
    let used = len / 64 + u64::from(len % 64 != 0);
    if (words.len() as u64) < used {
        return None;
    }
    let used = words[..used as usize].to_vec();
    if len % 64 != 0 && used[used.len() - 1] >> (len % 64) != 0 {
        return None;
    }
    Some(BitVector {
        words: used.into(),
        len: len as usize,
    })
}

fn unary<'a>(held: &Held, mut words: impl Iterator<Item = &'a str>) -> Answer {
    enum Step {
        Next,
        Skip1(usize),
        Skip0(usize),
        Position,
    }
    let start = number(words.next()?)? as usize;
    let mut steps = vec![];
    while let Some(word) = words.next() {
        steps.push(match word {
            "next" => Step::Next,
            "skip1" => Step::Skip1(number(words.next()?)? as usize),
            "skip0" => Step::Skip0(number(words.next()?)? as usize),
            "position" => Step::Position,
            _ => return None,
        });
    }
    let Some(bits) = &held.bits else {
        return Some("no vector".to_string());
    };
    let mut walk: UnaryIter = bits.unary_iter(start);
    let answers = steps.iter().map(|step| match *step {
        Step::Next => maybe(walk.next()),
        Step::Skip1(k) => maybe(walk.skip1(k)),
        Step::Skip0(k) => maybe(walk.skip0(k)),
        Step::Position => walk.position().to_string(),
    });
    Some(answers.collect::<Vec<_>>().join(" "))
}

// Record.

fn on_build(held: &mut Held, name: &str, args: &[u64]) -> Answer {
    match (name, args) {
        ("start", &[u, n]) => {
            if MOST < n {
                return Some("not run".to_string());
            }
            match EliasFanoBuilder::new(u, n as usize) {
                Ok(builder) => held.builder = Some(builder),
                Err(e) => return Some(error(&e)),
            }
        }
        ("reading", &[t]) => {
            let Some(builder) = &mut held.builder else {
                return Some("no builder".to_string());
            };
            return Some(done(builder.push(t)));
        }
        ("finish", &[c]) => {
            let rank = choice(c)?;
            let Some(builder) = &held.builder else {
                return Some("no builder".to_string());
            };
            held.declared = builder.num_vals();
            // `build` takes the builder, so a copy is built and the builder stays.
            let copy = EliasFanoBuilder {
                high_bits: builder.high_bits.clone(),
                low_bits: builder.low_bits.clone(),
                ..*builder
            };
            held.record = Some(record(copy.build(), rank));
        }
        ("from_bits", &[c]) => {
            let rank = choice(c)?;
            let Some(bits) = &held.bits else {
                return Some("no vector".to_string());
            };
            match EliasFano::from_bits(bits.iter()) {
                Ok(ef) => {
                    held.declared = ef.len();
                    held.record = Some(record(ef, rank));
                }
                Err(e) => return Some(error(&e)),
            }
        }
        ("sums", items) => match PrefixSummedEliasFano::from_slice(items) {
            Ok(sums) => {
                held.declared = items.len();
                held.record = Some(sums);
            }
            Err(e) => return Some(error(&e)),
        },
        _ => return None,
    }
    ok()
}

fn record(ef: EliasFano, rank: bool) -> PrefixSummedEliasFano {
    let ef = if rank { ef.enable_rank() } else { ef };
    PrefixSummedEliasFano { ef: Some(ef) }
}

fn on_record(held: &Held, name: &str, args: &[u64]) -> Answer {
    let no_record = || Some("no record".to_string());
    if let ("sums_access" | "sums_walk", &[_]) | ("sums_len", &[]) = (name, args) {
        let Some(sums) = &held.record else {
            return no_record();
        };
        return Some(match args {
            &[p] if name == "sums_access" => maybe(sums.access(p as usize)),
            &[count] => walk(sums.iter(), count),
            _ => sums.len().to_string(),
        });
    }
    let known = matches!(
        (name, args.len()),
        ("len" | "universe" | "has_rank" | "parts", 0)
            | (
                "select" | "delta" | "rank" | "predecessor" | "successor" | "search",
                1
            )
            | ("walk", 2)
            | ("search_range", 3)
    );
    if !known {
        return None;
    }
    let Some(PrefixSummedEliasFano { ef: Some(ef) }) = &held.record else {
        return no_record();
    };
    Some(match (name, args) {
        ("len", _) => ef.len().to_string(),
        ("universe", _) => ef.universe().to_string(),
        ("has_rank", _) => u8::from(ef.has_rank()).to_string(),
        ("parts", _) => parts(ef, held.declared),
        ("select", &[k]) => maybe(ef.select(k as usize)),
        ("delta", &[k]) => maybe(ef.delta(k as usize)),
        ("rank", &[t]) => maybe(ef.rank(t)),
        ("predecessor", &[v]) => maybe(ef.predecessor(v)),
        ("successor", &[v]) => maybe(ef.successor(v)),
        ("search", &[v]) => maybe(ef.binsearch(v)),
        ("search_range", &[a, b, v]) => maybe(ef.binsearch_range(a as usize..b as usize, v)),
        ("walk", &[k, count]) => walk(ef.iter(k as usize), count),
        _ => return None,
    })
}

fn walk(mut values: impl Iterator<Item = u64>, count: u64) -> String {
    let answers = (0..count).map(|_| maybe(values.next()));
    answers.collect::<Vec<_>>().join(" ")
}

/// `U N M RANK L`, the high bits, the low bits, the index over ones and, with the rank index, that over zeros.
fn parts(ef: &EliasFano, declared: usize) -> String {
    let bits = |b: &BitVector| with_words(&[b.len() as u64], b.words());
    let rank = u64::from(ef.has_rank());
    let numbers = [
        ef.universe,
        declared as u64,
        ef.len() as u64,
        rank,
        ef.low_len as u64,
    ];
    let mut parts = vec![
        list(&numbers),
        bits(&ef.high_bits.bv),
        bits(&ef.low_bits),
        index(&ef.high_bits.s1),
    ];
    parts.extend(ef.high_bits.s0.as_ref().map(index));
    parts.join(" ; ")
}

// Sparse vector.

fn on_sparse(held: &mut Held, name: &str, args: &[u64]) -> Answer {
    match (name, args) {
        ("sarray", &[len, c]) => {
            let ef = held.record.as_ref().and_then(|record| record.ef.clone());
            held.sparse = SArray {
                num_bits: len as usize,
                num_ones: ef.as_ref().map_or(0, EliasFano::len),
                has_rank: choice(c)?,
                ef,
            };
            return ok();
        }
        ("sarray_from_bits", &[c]) => {
            let rank = choice(c)?;
            let Some(bits) = &held.bits else {
                return Some("no vector".to_string());
            };
            let sparse = SArray::from_bits(bits.iter());
            held.sparse = if rank { sparse.enable_rank() } else { sparse };
            return ok();
        }
        _ => {}
    }
    let sparse = &held.sparse;
    Some(match (name, args) {
        ("sarray_parts", &[]) => match &sparse.ef {
            Some(ef) => parts(ef, sparse.num_ones()),
            None => "no record".to_string(),
        },
        ("sarray_access", &[p]) => maybe(sparse.access(p as usize).map(u8::from)),
        ("sarray_rank1", &[p]) => maybe(sparse.rank1(p as usize)),
        ("sarray_select1", &[k]) => maybe(sparse.select1(k as usize)),
        ("sarray_predecessor1", &[p]) => maybe(sparse.predecessor1(p as usize)),
        ("sarray_successor1", &[p]) => maybe(sparse.successor1(p as usize)),
        _ => return None,
    })
}

// Text.

/// A decimal below 2^64, without a sign.
fn number(word: &str) -> Option<u64> {
    let digits = word.bytes().all(|b| b.is_ascii_digit());
    digits.then(|| word.parse().ok()).flatten()
}

fn choice(value: u64) -> Option<bool> {
    (value < 2).then_some(value == 1)
}

fn ok() -> Answer {
    Some("ok".to_string())
}

fn done(result: sucds::Result<()>) -> String {
    result.map_or_else(|e| error(&e), |()| "ok".to_string())
}

fn error(e: &SucdsError) -> String {
    let kind = match e {
        SucdsError::InvalidArgument(_) => "InvalidArgument",
        SucdsError::OutOfBounds(_) => "OutOfBounds",
        SucdsError::InvalidState(_) => "InvalidState",
        SucdsError::Unsupported(_) => "Unsupported",
        SucdsError::InvalidData(_) => "InvalidData",
        SucdsError::Io(_) => "Io",
    };
    format!("error {kind}")
}

fn maybe<T: ToString>(value: Option<T>) -> String {
    value.map_or_else(|| "none".to_string(), |v| v.to_string())
}

fn list<T: ToString>(values: &[T]) -> String {
    values
        .iter()
        .map(T::to_string)
        .collect::<Vec<_>>()
        .join(" ")
}

/// `A.. : W..`
fn with_words(numbers: &[u64], words: &[u64]) -> String {
    joined(&[list(numbers), ":".to_string(), list(words)])
}

/// `positions | entries | lanes | overflow`
fn index(index: &DArrayIndex) -> String {
    let bar = || "|".to_string();
    joined(&[
        index.num_positions.to_string(),
        bar(),
        list(&index.block_inventory),
        bar(),
        list(&index.subblock_inventory),
        bar(),
        list(&index.overflow_positions),
    ])
}

/// One space between what is there.
fn joined(parts: &[String]) -> String {
    let there = parts.iter().filter(|p| !p.is_empty()).map(String::as_str);
    there.collect::<Vec<_>>().join(" ")
}
