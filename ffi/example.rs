// A record of burner starts in Rust, over the same library, asked every question, the same from bits, the gaps between them by their prefix
// sums, and their seconds as a sparse bit vector. `ffi/run` builds and runs it.
#[repr(C)]
#[derive(Clone, Debug, PartialEq)]
struct EfBuilder {
    universe: u64,
    num_vals: u64,
    num_pushed: u64,
    last: u64,
}

#[repr(C)]
struct EfPushed {
    refusal: u64,
    builder: EfBuilder,
}

#[repr(C)]
#[derive(Clone, Copy)]
struct EfAnswer {
    kind: u64,
    value: u64,
}

const EF_VALUE: u64 = 0;
const EF_NONE: u64 = 1;

// The refusals, as in elias_fano.h.
#[derive(Clone, Copy, Debug, PartialEq)]
enum Refusal {
    NoValues,
    TooMany,
    ShortBuffer,
    Decreasing,
    OutOfUniverse,
    Full,
    Invalid,
    NoRankIndex,
    Range,
    NoBits,
    NoOnes,
    SumTooLarge,
    InvalidBits,
    InvalidWindows,
}

fn refusal(number: u64) -> Refusal {
    match number {
        1 => Refusal::NoValues,
        2 => Refusal::TooMany,
        3 => Refusal::ShortBuffer,
        4 => Refusal::Decreasing,
        5 => Refusal::OutOfUniverse,
        6 => Refusal::Full,
        7 => Refusal::Invalid,
        8 => Refusal::NoRankIndex,
        9 => Refusal::Range,
        10 => Refusal::NoBits,
        11 => Refusal::NoOnes,
        12 => Refusal::SumTooLarge,
        13 => Refusal::InvalidBits,
        17 => Refusal::InvalidWindows,
        _ => unreachable!("the library has no other refusal"),
    }
}

extern "C" {
    fn ef_limit(universe: u64, num_vals: u64, rank: bool) -> EfAnswer;
    fn ef_new(universe: u64, num_vals: u64, buffer: *mut u64, len: usize) -> EfPushed;
    fn ef_push(builder: EfBuilder, value: u64, buffer: *mut u64, len: usize) -> EfPushed;
    fn ef_resume(builder: EfBuilder, words: *const u64, len: usize) -> EfPushed;
    fn ef_build(builder: EfBuilder, rank: bool, buffer: *mut u64, len: usize) -> EfAnswer;
    fn ef_open(image: *const u64, len: usize) -> u64;
    fn ef_select(image: *const u64, len: usize, k: usize) -> EfAnswer;
    fn ef_delta(image: *const u64, len: usize, k: usize) -> EfAnswer;
    fn ef_rank(image: *const u64, len: usize, value: u64) -> EfAnswer;
    fn ef_predecessor(image: *const u64, len: usize, value: u64) -> EfAnswer;
    fn ef_successor(image: *const u64, len: usize, value: u64) -> EfAnswer;
    fn ef_binsearch(image: *const u64, len: usize, value: u64) -> EfAnswer;
    fn ef_binsearch_range(image: *const u64, len: usize, a: usize, b: usize, value: u64) -> EfAnswer;
    fn ef_compare(image: *const u64, len: usize, seconds: *const u64, count: usize, out: *mut u64, out_len: usize) -> EfAnswer;
    fn ef_count_in_windows(image: *const u64, len: usize, windows: *const u64, count: usize, from: u64, to: u64) -> EfAnswer;
    fn ef_len(image: *const u64, len: usize) -> EfAnswer;
    fn ef_is_empty(image: *const u64, len: usize) -> EfAnswer;
    fn ef_universe(image: *const u64, len: usize) -> EfAnswer;
    fn ef_has_rank(image: *const u64, len: usize) -> EfAnswer;
    fn ef_read_from(image: *const u64, len: usize, k: usize, out: *mut u64, out_len: usize) -> EfAnswer;
    fn ef_selects(image: *const u64, len: usize, ks: *const u64, count: usize, out: *mut u64, out_len: usize) -> EfAnswer;
    fn ef_deltas(image: *const u64, len: usize, ks: *const u64, count: usize, out: *mut u64, out_len: usize) -> EfAnswer;
    fn ef_ranks(image: *const u64, len: usize, values: *const u64, count: usize, out: *mut u64, out_len: usize) -> EfAnswer;
    fn ef_predecessors(image: *const u64, len: usize, values: *const u64, count: usize, out: *mut u64, out_len: usize) -> EfAnswer;
    fn ef_successors(image: *const u64, len: usize, values: *const u64, count: usize, out: *mut u64, out_len: usize) -> EfAnswer;
    fn ef_binsearches(image: *const u64, len: usize, values: *const u64, count: usize, out: *mut u64, out_len: usize) -> EfAnswer;
    fn ef_from_bits(bits: *const u64, len: usize, num_bits: usize, rank: bool, buffer: *mut u64, buffer_len: usize) -> EfAnswer;
    fn ef_sums_from_slice(items: *const u64, count: usize, buffer: *mut u64, len: usize) -> EfAnswer;
    fn ef_sums_access(image: *const u64, len: usize, pos: usize) -> EfAnswer;
    fn ef_sums_len(image: *const u64, len: usize) -> EfAnswer;
    fn ef_sums_read(image: *const u64, len: usize, k: usize, out: *mut u64, out_len: usize) -> EfAnswer;
    fn ef_sarray_from_bits(bits: *const u64, len: usize, num_bits: usize, rank: bool, buffer: *mut u64, buffer_len: usize) -> EfAnswer;
    fn ef_sarray_open(image: *const u64, len: usize, num_bits: usize, rank: bool) -> u64;
    fn ef_sarray_access(image: *const u64, len: usize, num_bits: usize, rank: bool, pos: usize) -> EfAnswer;
    fn ef_sarray_rank1(image: *const u64, len: usize, num_bits: usize, rank: bool, pos: usize) -> EfAnswer;
    fn ef_sarray_select1(image: *const u64, len: usize, num_bits: usize, rank: bool, k: usize) -> EfAnswer;
    fn ef_sarray_predecessor1(image: *const u64, len: usize, num_bits: usize, rank: bool, pos: usize) -> EfAnswer;
    fn ef_sarray_successor1(image: *const u64, len: usize, num_bits: usize, rank: bool, pos: usize) -> EfAnswer;
    fn ef_sarray_accesses(
        image: *const u64, len: usize, num_bits: usize, rank: bool, positions: *const u64, count: usize, out: *mut u64, out_len: usize,
    ) -> EfAnswer;
    fn ef_sarray_rank1s(
        image: *const u64, len: usize, num_bits: usize, rank: bool, positions: *const u64, count: usize, out: *mut u64, out_len: usize,
    ) -> EfAnswer;
    fn ef_sarray_select1s(
        image: *const u64, len: usize, num_bits: usize, rank: bool, ks: *const u64, count: usize, out: *mut u64, out_len: usize,
    ) -> EfAnswer;
    fn ef_sarray_predecessor1s(
        image: *const u64, len: usize, num_bits: usize, rank: bool, positions: *const u64, count: usize, out: *mut u64, out_len: usize,
    ) -> EfAnswer;
    fn ef_sarray_successor1s(
        image: *const u64, len: usize, num_bits: usize, rank: bool, positions: *const u64, count: usize, out: *mut u64, out_len: usize,
    ) -> EfAnswer;
}

/// A value, a plain none, or a refusal.
type Answer = Result<Option<u64>, Refusal>;

fn answer(a: EfAnswer) -> Answer {
    match a.kind {
        EF_VALUE => Ok(Some(a.value)),
        EF_NONE => Ok(None),
        _ => Err(refusal(a.value)),
    }
}

/// A question with a number or a value, and the same with many.
type One = unsafe extern "C" fn(*const u64, usize, u64) -> EfAnswer;
type ByNumber = unsafe extern "C" fn(*const u64, usize, usize) -> EfAnswer;
type Plain = unsafe extern "C" fn(*const u64, usize) -> EfAnswer;
type Many = unsafe extern "C" fn(*const u64, usize, *const u64, usize, *mut u64, usize) -> EfAnswer;

fn one(question: One, image: &[u64], value: u64) -> Answer {
    answer(unsafe { question(image.as_ptr(), image.len(), value) })
}

fn by_number(question: ByNumber, image: &[u64], k: usize) -> Answer {
    answer(unsafe { question(image.as_ptr(), image.len(), k) })
}

fn plain(question: Plain, image: &[u64]) -> Answer {
    answer(unsafe { question(image.as_ptr(), image.len()) })
}

fn many(question: Many, image: &[u64], args: &[u64]) -> Result<Vec<Answer>, Refusal> {
    answers(args.len(), |out, len| unsafe { question(image.as_ptr(), image.len(), args.as_ptr(), args.len(), out, len) })
}

// What a call writes to the words that so many answers take.
fn answers(count: usize, call: impl FnOnce(*mut u64, usize) -> EfAnswer) -> Result<Vec<Answer>, Refusal> {
    let mut out = vec![EfAnswer { kind: 9, value: 9 }; count];
    let answered = answer(call(out.as_mut_ptr().cast(), 2 * count))?.expect("a number") as usize;
    Ok(out[..answered].iter().map(|&a| answer(a)).collect())
}

fn binsearch_range(image: &[u64], a: usize, b: usize, value: u64) -> Answer {
    answer(unsafe { ef_binsearch_range(image.as_ptr(), image.len(), a, b, value) })
}

fn read_from(image: &[u64], k: usize, out: &mut [u64]) -> Answer {
    answer(unsafe { ef_read_from(image.as_ptr(), image.len(), k, out.as_mut_ptr(), out.len()) })
}

fn limit(universe: u64, num_vals: u64, rank: bool) -> Result<usize, Refusal> {
    Ok(answer(unsafe { ef_limit(universe, num_vals, rank) })?.expect("a number of words") as usize)
}

fn new(universe: u64, num_vals: u64, buffer: &mut [u64]) -> Result<EfBuilder, Refusal> {
    let p = unsafe { ef_new(universe, num_vals, buffer.as_mut_ptr(), buffer.len()) };
    if p.refusal == 0 { Ok(p.builder) } else { Err(refusal(p.refusal)) }
}

fn push(builder: &mut EfBuilder, value: u64, buffer: &mut [u64]) -> Result<(), Refusal> {
    let p = unsafe { ef_push(builder.clone(), value, buffer.as_mut_ptr(), buffer.len()) };
    *builder = p.builder;
    if p.refusal == 0 { Ok(()) } else { Err(refusal(p.refusal)) }
}

fn resume(builder: &EfBuilder, words: &[u64]) -> Result<EfBuilder, Refusal> {
    let p = unsafe { ef_resume(builder.clone(), words.as_ptr(), words.len()) };
    if p.refusal == 0 { Ok(p.builder) } else { Err(refusal(p.refusal)) }
}

// Takes the builder, so that no push can follow an accepted build; a refused one hands it back.
fn build(builder: EfBuilder, rank: bool, buffer: &mut [u64]) -> Result<usize, (Refusal, EfBuilder)> {
    let a = unsafe { ef_build(builder.clone(), rank, buffer.as_mut_ptr(), buffer.len()) };
    if a.kind == EF_VALUE { Ok(a.value as usize) } else { Err((refusal(a.value), builder)) }
}

fn open(image: &[u64]) -> Result<(), Refusal> {
    opened(unsafe { ef_open(image.as_ptr(), image.len()) })
}

fn opened(number: u64) -> Result<(), Refusal> {
    if number == 0 { Ok(()) } else { Err(refusal(number)) }
}

fn select(image: &[u64], k: usize) -> Answer {
    by_number(ef_select, image, k)
}

// ---- what each question answers, by the list

fn gap(times: &[u64], k: usize) -> Option<u64> {
    Some(times.get(k)? - if k == 0 { 0 } else { times[k - 1] })
}

fn below(times: &[u64], value: u64) -> u64 {
    times.partition_point(|&t| t < value) as u64
}

fn first_of(times: &[u64], value: u64) -> Option<u64> {
    let k = below(times, value);
    (times.get(k as usize) == Some(&value)).then_some(k)
}

fn at_most(times: &[u64], value: u64) -> Option<u64> {
    times[..times.partition_point(|&t| t <= value)].last().copied()
}

fn at_least(times: &[u64], value: u64) -> Option<u64> {
    times[below(times, value) as usize..].first().copied()
}

/// Each answer is as the list has it, and some are asked for by themselves.
fn compare(name: &str, args: &[u64], answers: &[Answer], by_list: impl Fn(u64) -> Answer, alone: impl Fn(u64) -> Answer) {
    assert_eq!(answers, args.iter().map(|&x| by_list(x)).collect::<Vec<_>>(), "{name}");
    for i in (0..args.len()).step_by(997) {
        assert_eq!(alone(args[i]), answers[i], "{name}");
    }
}

/// Some numbers below the universe, those of the list, and some from the universe on.
fn around(list: &[u64], universe: u64) -> Vec<u64> {
    (0..universe + 3).step_by(101).chain(list.iter().copied()).chain(universe.saturating_sub(1)..universe + 3).collect()
}

/// Every question by the many, each answer as the list has it, and some by themselves. The list ends below the universe.
fn questions(image: &[u64], times: &[u64], universe: u64) {
    let ks: Vec<u64> = (0..times.len() as u64 + 3).collect();
    let select = |k: u64| Ok(times.get(k as usize).copied());
    assert_eq!(many(ef_selects, image, &ks).unwrap(), ks.iter().map(|&k| select(k)).collect::<Vec<_>>());
    let delta = |k: u64| Ok(gap(times, k as usize));
    assert_eq!(many(ef_deltas, image, &ks).unwrap(), ks.iter().map(|&k| delta(k)).collect::<Vec<_>>());

    let values = around(times, universe);
    let check = |name: &str, all: Many, alone: One, by_list: &dyn Fn(u64) -> Option<u64>| {
        let answers = many(all, image, &values).unwrap();
        compare(name, &values, &answers, |v| Ok(by_list(v)), |v| one(alone, image, v));
    };
    check("rank", ef_ranks, ef_rank, &|v| (v <= universe).then(|| below(times, v)));
    check("predecessor", ef_predecessors, ef_predecessor, &|v| at_most(times, v));
    check("successor", ef_successors, ef_successor, &|v| at_least(times, v));

    check("binsearch", ef_binsearches, ef_binsearch, &|v| first_of(times, v));
    assert_eq!(many(ef_ranks, &image[1..], &values), Err(Refusal::Invalid));
}

/// The questions that take no value, the range of a search, and reading out.
fn other_questions(image: &[u64], times: &[u64], universe: u64) {
    let n = times.len();
    assert_eq!(plain(ef_len, image), Ok(Some(n as u64)));
    assert_eq!(plain(ef_is_empty, image), Ok(Some(0)));
    assert_eq!(plain(ef_universe, image), Ok(Some(universe)));
    assert_eq!(plain(ef_has_rank, image), Ok(Some(1)));
    assert_eq!(by_number(ef_delta, image, n - 1), Ok(gap(times, n - 1)));
    let last = times[n - 1];
    assert_eq!(binsearch_range(image, n - 1, n, last), Ok(Some(n as u64 - 1)));
    assert_eq!(binsearch_range(image, 0, n, last + 1), Ok(None));
    assert_eq!(binsearch_range(image, 7, 7, last), Ok(None));
    assert_eq!(binsearch_range(image, 0, n + 1, last), Err(Refusal::Range));
    let mut out = vec![u64::MAX; n];
    assert_eq!(read_from(image, 1_000, &mut out), Ok(Some(n as u64 - 1_000)));
    assert_eq!(out[..n - 1_000], times[1_000..]);
    assert_eq!(out[n - 1_000..], [u64::MAX; 1_000]);
    assert_eq!(read_from(image, n, &mut out), Ok(Some(0)));
}

fn count_in_windows(image: &[u64], windows: &[u64], from: u64, to: u64) -> Answer {
    answer(unsafe { ef_count_in_windows(image.as_ptr(), image.len(), windows.as_ptr(), windows.len(), from, to) })
}

/// Starts in the mornings and evenings of Monday to Friday, by days, beside a count of the list.
fn heating(image: &[u64], times: &[u64]) {
    const HOUR: u64 = 3_600;
    const WEEK: u64 = 168 * HOUR;
    let windows: Vec<u64> = (0..5).flat_map(|day| [6, 9, 16, 22].map(|hour| (24 * day + hour) * HOUR)).collect();
    let inside = |t: u64| windows.chunks(2).any(|w| (w[0]..w[1]).contains(&(t % WEEK)));
    let counted = |from, to| times.iter().filter(|&&t| from <= t && t < to && inside(t)).count() as u64;
    let days = times[times.len() - 1] / (24 * HOUR) + 2;
    let each: Vec<u64> = (0..days).map(|day| (24 * day * HOUR, 24 * (day + 1) * HOUR)).map(|(from, to)| {
        let count = counted(from, to);
        assert_eq!(count_in_windows(image, &windows, from, to), Ok(Some(count)));
        count
    }).collect();
    assert_eq!(count_in_windows(image, &windows, 0, u64::MAX), Ok(Some(each.iter().sum())));
    assert_eq!(count_in_windows(image, &[0, WEEK], 0, u64::MAX), Ok(Some(times.len() as u64)));
    assert_eq!(count_in_windows(image, &[0, WEEK + 1], 0, u64::MAX), Err(Refusal::InvalidWindows));
    assert_eq!(count_in_windows(&image[1..], &[0], 0, u64::MAX), Err(Refusal::Invalid));
}

fn compare_spans(image: &[u64], seconds: &[u64], out: &mut [u64]) -> Answer {
    answer(unsafe { ef_compare(image.as_ptr(), image.len(), seconds.as_ptr(), seconds.len(), out.as_mut_ptr(), out.len()) })
}

/// Starts day by day, beside the list itself.
fn days(image: &[u64], times: &[u64]) {
    const DAY: u64 = 86_400;
    let seconds: Vec<u64> = (0..=times[times.len() - 1] / DAY + 1).map(|day| day * DAY).collect();
    let spans = seconds.len() - 1;
    let mut out = vec![u64::MAX; 4 * spans + 1];
    assert_eq!(compare_spans(image, &seconds, &mut out[..4 * spans - 1]), Err(Refusal::ShortBuffer));
    assert_eq!(compare_spans(&image[1..], &seconds, &mut []), Err(Refusal::Invalid));
    assert!(out.iter().all(|&w| w == u64::MAX));
    assert_eq!(compare_spans(image, &seconds, &mut out), Ok(Some(spans as u64)));
    for (span, told) in seconds.windows(2).zip(out.chunks(4)) {
        let inside: Vec<u64> = times.iter().copied().filter(|t| (span[0]..span[1]).contains(t)).collect();
        let shortest = inside.windows(2).map(|w| w[1] - w[0]).min().unwrap_or(0);
        assert_eq!(told, [inside.len() as u64, inside.first().copied().unwrap_or(0), inside.last().copied().unwrap_or(0), shortest]);
    }
    assert_eq!(out[4 * spans], u64::MAX);
}

type FromBits = unsafe extern "C" fn(*const u64, usize, usize, bool, *mut u64, usize) -> EfAnswer;

fn image_by(make: FromBits, bits: &[u64], num_bits: usize, rank: bool, buffer: &mut [u64]) -> Answer {
    answer(unsafe { make(bits.as_ptr(), bits.len(), num_bits, rank, buffer.as_mut_ptr(), buffer.len()) })
}

fn image_of_bits(bits: &[u64], num_bits: usize, rank: bool, buffer: &mut [u64]) -> Answer {
    image_by(ef_from_bits, bits, num_bits, rank, buffer)
}

// Bits with ones at these places.
fn bits_of(places: &[u64], num_bits: usize) -> Vec<u64> {
    let mut bits = vec![0; num_bits.div_ceil(64)];
    for &p in places {
        bits[p as usize / 64] |= 1 << (p % 64);
    }
    bits
}

/// The record of these places below the universe by one call is word for word the one by pushes, with rank and without.
fn from_bits(places: &[u64], universe: usize) {
    let bits = bits_of(places, universe);
    for rank in [false, true] {
        let mut pushed = vec![7; 3 * start_words(universe as u64, places.len() as u64) + 99];
        let mut b = new(universe as u64, places.len() as u64, &mut pushed).unwrap();
        for &p in places {
            push(&mut b, p, &mut pushed).unwrap();
        }
        let len = build(b, rank, &mut pushed).unwrap();
        let mut buffer = vec![7; len + 1];
        assert_eq!(image_of_bits(&bits, universe, rank, &mut buffer[..len - 1]), Err(Refusal::ShortBuffer));
        assert_eq!(buffer, vec![7; len + 1]);
        assert_eq!(image_of_bits(&bits, universe, rank, &mut buffer), Ok(Some(len as u64)));
        assert!(buffer[..len] == pushed[..len] && buffer[len] == 7);
    }
    let short = bits.len() - 1;
    assert_eq!(image_of_bits(&bits[..short], universe, true, &mut []), Err(Refusal::InvalidBits));
    assert_eq!(image_of_bits(&bits, 0, true, &mut []), Err(Refusal::NoBits));
    assert_eq!(image_of_bits(&[0], 64, true, &mut []), Err(Refusal::NoOnes));
}

fn sums_from_slice(items: &[u64], buffer: &mut [u64]) -> Answer {
    answer(unsafe { ef_sums_from_slice(items.as_ptr(), items.len(), buffer.as_mut_ptr(), buffer.len()) })
}

fn sums_read(image: &[u64], k: usize, out: &mut [u64]) -> Answer {
    answer(unsafe { ef_sums_read(image.as_ptr(), image.len(), k, out.as_mut_ptr(), out.len()) })
}

/// The items by their prefix sums: every item again, by place and all at once. `record` is the image of the sums, with rank.
fn prefix_sums(items: &[u64], record: &[u64]) {
    let n = items.len();
    let mut buffer = vec![u64::MAX; record.len()];
    let len = sums_from_slice(items, &mut buffer).unwrap().unwrap() as usize;
    assert_eq!(buffer[len..], vec![u64::MAX; record.len() - len]);
    let mut short = buffer.clone();
    assert_eq!(sums_from_slice(items, &mut short[..len - 1]), Err(Refusal::ShortBuffer));
    assert_eq!(short, buffer);
    assert_eq!(sums_from_slice(&[u64::MAX], &mut short), Err(Refusal::SumTooLarge));
    for image in [&buffer[..len], record] {
        assert_eq!(plain(ef_sums_len, image), Ok(Some(n as u64)));
        for k in (0..n).step_by(97) {
            assert_eq!(by_number(ef_sums_access, image, k), Ok(Some(items[k])));
        }
        assert_eq!(by_number(ef_sums_access, image, n), Ok(None));
        let mut out = vec![u64::MAX; n + 2];
        assert_eq!(sums_read(image, 0, &mut out), Ok(Some(n as u64)));
        assert_eq!((&out[..n], &out[n..]), (items, &[u64::MAX; 2][..]));
        assert_eq!(sums_read(image, 1_000, &mut out[..7]), Ok(Some(7)));
        assert_eq!(out[..7], items[1_000..1_007]);
        assert_eq!(sums_read(&image[1..], 0, &mut out), Err(Refusal::Invalid));
    }
    assert_eq!(sums_from_slice(&[], &mut buffer), Ok(Some(0)));
    assert_eq!((plain(ef_sums_len, &[]), by_number(ef_sums_access, &[], 0), sums_read(&[], 0, &mut short)), (Ok(Some(0)), Ok(None), Ok(Some(0))));
}

/// A sparse bit vector: no words are one of zeros.
#[derive(Clone, Copy)]
struct Vector<'a> {
    image: &'a [u64],
    num_bits: usize,
    rank: bool,
}

type OfVector = unsafe extern "C" fn(*const u64, usize, usize, bool, usize) -> EfAnswer;
type ManyOfVector = unsafe extern "C" fn(*const u64, usize, usize, bool, *const u64, usize, *mut u64, usize) -> EfAnswer;

impl Vector<'_> {
    fn open(self) -> Result<(), Refusal> {
        opened(unsafe { ef_sarray_open(self.image.as_ptr(), self.image.len(), self.num_bits, self.rank) })
    }

    fn one(self, question: OfVector, arg: u64) -> Answer {
        answer(unsafe { question(self.image.as_ptr(), self.image.len(), self.num_bits, self.rank, arg as usize) })
    }

    fn many(self, question: ManyOfVector, args: &[u64]) -> Result<Vec<Answer>, Refusal> {
        let (image, n, count) = (self.image.as_ptr(), self.image.len(), args.len());
        answers(count, |out, len| unsafe { question(image, n, self.num_bits, self.rank, args.as_ptr(), count, out, len) })
    }

    /// Every question by the many, each answer as the list of the ones' places has it, and some by themselves. Without the choice three are
    /// refused, whatever the place.
    fn questions(self, ones: &[u64]) {
        assert_eq!(self.open(), Ok(()));
        let len = self.num_bits as u64;
        let (ks, positions): (Vec<u64>, _) = ((0..ones.len() as u64 + 3).collect(), around(ones, len));
        let check = |name: &str, args: &[u64], all: ManyOfVector, alone: OfVector, by_list: &dyn Fn(u64) -> Answer| {
            compare(name, args, &self.many(all, args).unwrap(), by_list, |x| self.one(alone, x));
        };
        let ranked = |answer: Option<u64>| if self.rank { Ok(answer) } else { Err(Refusal::NoRankIndex) };
        let inside = |p: u64, answer: Option<u64>| if p < len { answer } else { None };
        let is_one = |p: u64| first_of(ones, p).map_or(0, |_| 1);
        check("access", &positions, ef_sarray_accesses, ef_sarray_access, &|p| Ok(inside(p, Some(is_one(p)))));
        check("rank1", &positions, ef_sarray_rank1s, ef_sarray_rank1, &|p| ranked((p <= len).then(|| below(ones, p))));
        check("select1", &ks, ef_sarray_select1s, ef_sarray_select1, &|k| Ok(ones.get(k as usize).copied()));
        check("predecessor1", &positions, ef_sarray_predecessor1s, ef_sarray_predecessor1, &|p| ranked(inside(p, at_most(ones, p))));
        check("successor1", &positions, ef_sarray_successor1s, ef_sarray_successor1, &|p| ranked(inside(p, at_least(ones, p))));
    }
}

/// The vector with ones at these places, with rank and without: its image is the record's. Then zeros, and no bits.
fn sparse(ones: &[u64], num_bits: usize) {
    let make = |bits: &[u64], num_bits, rank, buffer: &mut [u64]| image_by(ef_sarray_from_bits, bits, num_bits, rank, buffer);
    let bits = bits_of(ones, num_bits);
    assert_eq!(make(&bits[1..], num_bits, true, &mut []), Err(Refusal::InvalidBits));
    for rank in [false, true] {
        let mut record = vec![7; 3 * start_words(num_bits as u64, ones.len() as u64) + 99];
        let mut buffer = record.clone();
        let len = image_of_bits(&bits, num_bits, rank, &mut record).unwrap().unwrap() as usize;
        assert_eq!(make(&bits, num_bits, rank, &mut buffer[..len - 1]), Err(Refusal::ShortBuffer));
        assert_eq!(make(&bits, num_bits, rank, &mut buffer), Ok(Some(len as u64)));
        assert_eq!(buffer, record);
        let vector = Vector { image: &buffer[..len], num_bits, rank };
        vector.questions(ones);
        for other in [Vector { num_bits: num_bits + 1, ..vector }, Vector { rank: !rank, ..vector }] {
            assert_eq!(other.open(), Err(Refusal::Invalid));
            assert_eq!(other.one(ef_sarray_rank1, 4), Err(Refusal::Invalid));
            assert_eq!(other.many(ef_sarray_accesses, ones), Err(Refusal::Invalid));
        }
        for num_bits in [num_bits, 0] {
            assert_eq!(make(&vec![0; bits.len()], num_bits, rank, &mut buffer), Ok(Some(0)));
            assert_eq!(buffer, record);
            Vector { image: &[], num_bits, rank }.questions(&[]);
        }
    }
}

// What ef_new zeroes, as in elias_fano.h.
fn start_words(u: u64, n: u64) -> usize {
    let l = (u / n).checked_ilog2().unwrap_or(0);
    let high = n + 2 + (u >> l);
    (6 + high.div_ceil(64) + (n * u64::from(l)).div_ceil(64)) as usize
}

fn main() {
    // a few thousand starts with gaps of up to half an hour, from a fixed seed; 300 of them in one second
    let mut seed = 1u64;
    let mut now = 0u64;
    let times: Vec<u64> = (0..5_000)
        .map(|k| {
            seed = seed.wrapping_mul(6364136223846793005).wrapping_add(1442695040888963407);
            now += if (2_000..2_300).contains(&k) { 0 } else { (seed >> 33) % 1_801 };
            now
        })
        .collect();
    let start = start_words(now + 1, 5_000);
    assert_eq!(new(now + 1, 5_000, &mut vec![0; start - 1]), Err(Refusal::ShortBuffer));
    let mut buffer = vec![u64::MAX; start];
    let mut b = new(now + 1, 5_000, &mut buffer).unwrap();
    for (k, &t) in times.iter().enumerate() {
        // a cut: the words of the start go on in other memory
        if k % 1_000 == 0 {
            buffer = buffer.clone();
            b = resume(&b, &buffer).unwrap();
        }
        push(&mut b, t, &mut buffer).unwrap();
    }
    assert_eq!(push(&mut b, now, &mut buffer), Err(Refusal::Full));

    // refused builds alter nothing and hand the builder back: one by another last time, one where the image has no room
    let before = buffer.clone();
    let forged = EfBuilder { last: now - 1, ..b.clone() };
    assert_eq!(resume(&forged, &buffer), Err(Refusal::Invalid));
    assert_eq!(build(forged.clone(), true, &mut buffer), Err((Refusal::Invalid, forged)));
    let Err((Refusal::ShortBuffer, b)) = build(b, true, &mut buffer) else { panic!("the image is longer than the start") };
    assert_eq!(buffer, before);
    // in as many words as the limit none is refused for their length
    assert_eq!((limit(now + 1, 0, true), limit(now + 1, 16_777_217, true)), (Err(Refusal::NoValues), Err(Refusal::TooMany)));
    buffer.resize(limit(now + 1, 5_000, true).unwrap(), u64::MAX);
    let mut plain = buffer.clone();
    let plain_len = build(b.clone(), false, &mut plain).unwrap();
    assert_eq!(one(ef_rank, &plain[..plain_len], now), Err(Refusal::NoRankIndex));
    let len = build(b, true, &mut buffer).unwrap();

    let image = &buffer[..len];
    assert_eq!(open(image), Ok(()));
    assert_eq!(open(&buffer[..len - 1]), Err(Refusal::Invalid));
    for k in (0..5_000).step_by(97) {
        assert_eq!(select(image, k), Ok(Some(times[k])));
    }
    assert_eq!(select(image, 5_000), Ok(None));
    assert_eq!(select(&[], 0), Err(Refusal::Invalid));
    questions(image, &times, now + 1);
    other_questions(image, &times, now + 1);
    heating(image, &times);
    days(image, &times);
    prefix_sums(&(0..times.len()).map(|k| gap(&times, k).unwrap()).collect::<Vec<_>>(), image);
    // starts of different seconds; then a block of zeros, and blocks of ones, too far apart for 16 bits
    let mut places = times.clone();
    places.dedup();
    from_bits(&places, now as usize + 1);
    from_bits(&(0..70_000).collect::<Vec<_>>(), 1 << 23);
    from_bits(&(0..60_000).chain(188_003..218_003).collect::<Vec<_>>(), 1 << 18);
    sparse(&places, now as usize + 1);
    assert_eq!(Vector { image, num_bits: now as usize + 1, rank: true }.open(), Err(Refusal::Invalid), "a second that is there twice");
    // a file has 8 bytes a word, little end first
    let file: Vec<u8> = image.iter().flat_map(|w| w.to_le_bytes()).collect();
    let read: Vec<u64> = file.chunks(8).map(|b| u64::from_le_bytes(b.try_into().unwrap())).collect();
    assert_eq!(select(&read, 4_999), Ok(Some(now)));
    println!("Rust: {} starts in {} words, all as expected", times.len(), len);
}
