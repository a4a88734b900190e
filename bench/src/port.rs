//! The port's functions, as crates/bench_exports has them, and those of crates/ffi for a record and a sparse vector. A slice crosses as a pointer and a count.

/// How far a record is written, as ffi/elias_fano.h has it.
#[repr(C)]
pub struct Builder {
    universe: u64,
    num_vals: u64,
    num_pushed: u64,
    last: u64,
}

/// An answer, as ffi/elias_fano.h has it: two words.
#[repr(C)]
#[derive(Clone, Copy, Default)]
pub struct Answer {
    kind: u64,
    value: u64,
}

impl Answer {
    /// The value or a plain none; no question of the bench is refused.
    pub fn get(self) -> Option<u64> {
        assert!(self.kind < 2, "refused with {}", self.value);
        (self.kind == 0).then_some(self.value)
    }
}

mod c {
    use super::Answer;

    extern "C" {
        pub fn bench_lsb(words: *const u64, n: usize) -> u64;
        pub fn bench_select_in_word_by(
            words: *const u64,
            n: usize,
            ks: *const usize,
            m: usize,
        ) -> u64;
        pub fn bench_select_in_word(words: *const u64, n: usize, ks: *const usize, m: usize)
            -> u64;
        pub fn bench_rank1(
            words: *const u64,
            n: usize,
            len: usize,
            places: *const usize,
            m: usize,
        ) -> u64;
        pub fn bench_select1(
            words: *const u64,
            n: usize,
            len: usize,
            ks: *const usize,
            m: usize,
        ) -> u64;
        pub fn bench_predecessor1(
            words: *const u64,
            n: usize,
            len: usize,
            places: *const usize,
            m: usize,
        ) -> u64;
        pub fn bench_walk(words: *const u64, n: usize, len: usize) -> u64;
        pub fn bench_build(
            words: *const u64,
            n: usize,
            len: usize,
            over_one: bool,
            out: *mut u64,
            m: usize,
        ) -> u64;
        pub fn bench_select(
            words: *const u64,
            n: usize,
            len: usize,
            over_one: bool,
            index: *const u64,
            m: usize,
            positions: usize,
            ks: *const usize,
            j: usize,
        ) -> u64;
        pub fn bench_count_in_windows(
            image: *const u64,
            n: usize,
            windows: *const u64,
            m: usize,
            spans: *const u64,
            j: usize,
        ) -> u64;
        pub fn ef_compare(
            image: *const u64,
            n: usize,
            seconds: *const u64,
            m: usize,
            out: *mut u64,
            j: usize,
        ) -> Answer;
        pub fn ef_read_from(
            image: *const u64,
            n: usize,
            k: usize,
            out: *mut u64,
            m: usize,
        ) -> Answer;
        pub fn ef_from_bits(
            words: *const u64,
            n: usize,
            len: usize,
            rank: bool,
            buffer: *mut u64,
            m: usize,
        ) -> Answer;
        pub fn ef_limit(universe: u64, num_vals: u64, rank: bool) -> Answer;
        pub fn ef_sums_from_slice(
            items: *const u64,
            n: usize,
            buffer: *mut u64,
            m: usize,
        ) -> Answer;
        pub fn ef_sums_read(
            image: *const u64,
            n: usize,
            k: usize,
            out: *mut u64,
            m: usize,
        ) -> Answer;
        pub fn ef_sarray_from_bits(
            words: *const u64,
            n: usize,
            len: usize,
            rank: bool,
            buffer: *mut u64,
            m: usize,
        ) -> Answer;
        pub fn ef_sarray_open(image: *const u64, n: usize, len: usize, rank: bool) -> u64;
        pub fn ef_sarray_accesses(
            i: *const u64,
            n: usize,
            len: usize,
            rank: bool,
            a: *const u64,
            m: usize,
            o: *mut u64,
            j: usize,
        ) -> Answer;
        pub fn ef_sarray_rank1s(
            i: *const u64,
            n: usize,
            len: usize,
            rank: bool,
            a: *const u64,
            m: usize,
            o: *mut u64,
            j: usize,
        ) -> Answer;
        pub fn ef_sarray_select1s(
            i: *const u64,
            n: usize,
            len: usize,
            rank: bool,
            a: *const u64,
            m: usize,
            o: *mut u64,
            j: usize,
        ) -> Answer;
        pub fn ef_sarray_predecessor1s(
            i: *const u64,
            n: usize,
            len: usize,
            rank: bool,
            a: *const u64,
            m: usize,
            o: *mut u64,
            j: usize,
        ) -> Answer;
        pub fn ef_sarray_successor1s(
            i: *const u64,
            n: usize,
            len: usize,
            rank: bool,
            a: *const u64,
            m: usize,
            o: *mut u64,
            j: usize,
        ) -> Answer;
    }
}

type OfWords = unsafe extern "C" fn(*const u64, usize) -> u64;
type Push = unsafe extern "C" fn(u64, u64, *const u64, usize, *mut u64, usize) -> u64;
type Finish = unsafe extern "C" fn(Builder, bool, *mut u64, usize) -> Answer;
type Walk = unsafe extern "C" fn(*const u64, usize, usize) -> u64;

/// The port of a commit, by those of its functions that stand beside those of an earlier one.
pub struct Port {
    pub popcount: OfWords,
    pub msb: OfWords,
    pub record_push: Push,
    pub record_build: Finish,
    pub record_open: OfWords,
    pub record_walk: Walk,
    pub selects: Many,
    pub deltas: Many,
    pub ranks: Many,
    pub predecessors: Many,
    pub successors: Many,
    pub binsearches: Many,
}

/// The port whose functions are linked with `$prefix` before their names.
macro_rules! linked {
    ($prefix:literal) => {
        linked!($prefix, selects deltas ranks predecessors successors binsearches)
    };
    ($prefix:literal, $($many:ident)*) => {{
        use $crate::port::{Answer, Builder, Port};

        extern "C" {
            #[link_name = concat!($prefix, "bench_popcount")]
            fn popcount(words: *const u64, n: usize) -> u64;
            #[link_name = concat!($prefix, "bench_msb")]
            fn msb(words: *const u64, n: usize) -> u64;
            #[link_name = concat!($prefix, "bench_record_push")]
            fn record_push(u: u64, n: u64, times: *const u64, m: usize, out: *mut u64, j: usize) -> u64;
            #[link_name = concat!($prefix, "ef_build")]
            fn record_build(builder: Builder, rank: bool, buffer: *mut u64, n: usize) -> Answer;
            #[link_name = concat!($prefix, "ef_open")]
            fn record_open(image: *const u64, n: usize) -> u64;
            #[link_name = concat!($prefix, "bench_record_walk")]
            fn record_walk(image: *const u64, n: usize, steps: usize) -> u64;
            $(
                #[link_name = concat!($prefix, "ef_", stringify!($many))]
                fn $many(image: *const u64, n: usize, args: *const u64, m: usize, out: *mut u64, j: usize) -> Answer;
            )*
        }
        Port { popcount, msb, record_push, record_build, record_open, record_walk, $($many),* }
    }};
}
#[cfg(feature = "before")]
pub(crate) use linked;

/// That of today.
pub const PORT: Port = linked!("");

impl Port {
    pub fn popcount(&self, words: &[u64]) -> u64 {
        unsafe { (self.popcount)(words.as_ptr(), words.len()) }
    }

    pub fn msb(&self, words: &[u64]) -> u64 {
        unsafe { (self.msb)(words.as_ptr(), words.len()) }
    }

    /// How many of the times a fresh record took.
    pub fn record_push(&self, universe: u64, times: &[u64], buffer: &mut [u64]) -> u64 {
        let (n, at, m) = (times.len(), buffer.as_mut_ptr(), buffer.len());
        unsafe { (self.record_push)(universe, n as u64, times.as_ptr(), n, at, m) }
    }

    /// How many words the image of a full record has.
    pub fn record_build(
        &self,
        universe: u64,
        num_vals: usize,
        last: u64,
        rank: bool,
        buffer: &mut [u64],
    ) -> usize {
        let builder = Builder {
            universe,
            num_vals: num_vals as u64,
            num_pushed: num_vals as u64,
            last,
        };
        let (at, m) = (buffer.as_mut_ptr(), buffer.len());
        let built = unsafe { (self.record_build)(builder, rank, at, m) };
        built.get().expect("a length") as usize
    }

    /// 0 if the words are an image.
    pub fn record_open(&self, image: &[u64]) -> u64 {
        unsafe { (self.record_open)(image.as_ptr(), image.len()) }
    }

    /// The sum of the times that so many steps from the first give.
    pub fn record_walk(&self, image: &[u64], steps: usize) -> u64 {
        unsafe { (self.record_walk)(image.as_ptr(), image.len(), steps) }
    }
}

pub fn lsb(words: &[u64]) -> u64 {
    unsafe { c::bench_lsb(words.as_ptr(), words.len()) }
}

pub fn select_in_word_by(words: &[u64], ks: &[usize]) -> u64 {
    unsafe { c::bench_select_in_word_by(words.as_ptr(), words.len(), ks.as_ptr(), ks.len()) }
}

pub fn select_in_word(words: &[u64], ks: &[usize]) -> u64 {
    unsafe { c::bench_select_in_word(words.as_ptr(), words.len(), ks.as_ptr(), ks.len()) }
}

pub fn rank1(words: &[u64], len: usize, places: &[usize]) -> u64 {
    unsafe {
        c::bench_rank1(
            words.as_ptr(),
            words.len(),
            len,
            places.as_ptr(),
            places.len(),
        )
    }
}

pub fn select1(words: &[u64], len: usize, ks: &[usize]) -> u64 {
    unsafe { c::bench_select1(words.as_ptr(), words.len(), len, ks.as_ptr(), ks.len()) }
}

pub fn predecessor1(words: &[u64], len: usize, places: &[usize]) -> u64 {
    unsafe {
        c::bench_predecessor1(
            words.as_ptr(),
            words.len(),
            len,
            places.as_ptr(),
            places.len(),
        )
    }
}

pub fn walk(words: &[u64], len: usize) -> u64 {
    unsafe { c::bench_walk(words.as_ptr(), words.len(), len) }
}

/// How many words the index has; 0 where the buffer is too short.
pub fn build(words: &[u64], len: usize, over_one: bool, out: &mut [u64]) -> usize {
    unsafe {
        c::bench_build(
            words.as_ptr(),
            words.len(),
            len,
            over_one,
            out.as_mut_ptr(),
            out.len(),
        ) as usize
    }
}

/// # Safety
///
/// `index` must be what `build` wrote for these bits, no word more, and `positions` the number of its positions.
pub unsafe fn select(
    words: &[u64],
    len: usize,
    over_one: bool,
    index: &[u64],
    positions: usize,
    ks: &[usize],
) -> u64 {
    c::bench_select(
        words.as_ptr(),
        words.len(),
        len,
        over_one,
        index.as_ptr(),
        index.len(),
        positions,
        ks.as_ptr(),
        ks.len(),
    )
}

/// How many times of the spans, two words each, are in the windows, in all.
pub fn count_in_windows(image: &[u64], windows: &[u64], spans: &[u64]) -> u64 {
    let (n, m, j) = (image.len(), windows.len(), spans.len());
    unsafe { c::bench_count_in_windows(image.as_ptr(), n, windows.as_ptr(), m, spans.as_ptr(), j) }
}

/// Of each span between two neighbouring seconds the number of times, the first, the last and the shortest gap, summed.
pub fn compare_spans(image: &[u64], seconds: &[u64]) -> u64 {
    let mut out = [0; 4 * 5];
    let (n, m, j) = (image.len(), seconds.len(), out.len());
    unsafe { c::ef_compare(image.as_ptr(), n, seconds.as_ptr(), m, out.as_mut_ptr(), j) };
    out.into_iter().fold(0, u64::wrapping_add)
}

/// How many times from the first on were written.
pub fn record_read(image: &[u64], out: &mut [u64]) -> u64 {
    let read =
        unsafe { c::ef_read_from(image.as_ptr(), image.len(), 0, out.as_mut_ptr(), out.len()) };
    read.get().expect("a number")
}

/// Makes the image of bits.
pub type FromBits = unsafe extern "C" fn(*const u64, usize, usize, bool, *mut u64, usize) -> Answer;

pub const FROM_BITS: FromBits = c::ef_from_bits;
pub const SARRAY_FROM_BITS: FromBits = c::ef_sarray_from_bits;

/// How many words the image with rank has.
pub fn from_bits(make: FromBits, words: &[u64], len: usize, buffer: &mut [u64]) -> usize {
    let (at, m) = (buffer.as_mut_ptr(), buffer.len());
    let answer = unsafe { make(words.as_ptr(), words.len(), len, true, at, m) };
    answer.get().expect("a length") as usize
}

/// Words that are enough for every record of these settings, each `word`.
pub fn lent(universe: u64, num_vals: usize, rank: bool, word: u64) -> Vec<u64> {
    let answer = unsafe { c::ef_limit(universe, num_vals as u64, rank) };
    vec![word; answer.get().expect("a number of words") as usize]
}

/// How many words the image has.
pub fn sums_from_slice(items: &[u64], buffer: &mut [u64]) -> usize {
    let (at, m) = (buffer.as_mut_ptr(), buffer.len());
    let answer = unsafe { c::ef_sums_from_slice(items.as_ptr(), items.len(), at, m) };
    answer.get().expect("a length") as usize
}

/// How many items from the first on were written.
pub fn sums_read(image: &[u64], out: &mut [u64]) -> u64 {
    let (at, m) = (out.as_mut_ptr(), out.len());
    let answer = unsafe { c::ef_sums_read(image.as_ptr(), image.len(), 0, at, m) };
    answer.get().expect("a number")
}

/// Many questions at once.
pub type Many =
    unsafe extern "C" fn(*const u64, usize, *const u64, usize, *mut u64, usize) -> Answer;

/// How many questions were answered: all.
pub fn record_ask(ask: Many, image: &[u64], args: &[u64], out: &mut [Answer]) -> u64 {
    let words = out.as_mut_ptr().cast();
    let (n, m) = (image.len(), args.len());
    let answered = unsafe { ask(image.as_ptr(), n, args.as_ptr(), m, words, 2 * out.len()) };
    answered.get().expect("a number")
}

/// 0 if the words are the image of a vector of so many bits, with rank.
pub fn sarray_open(image: &[u64], len: usize) -> u64 {
    unsafe { c::ef_sarray_open(image.as_ptr(), image.len(), len, true) }
}

/// Many questions of a sparse vector at once.
pub type SarrayMany = unsafe extern "C" fn(
    *const u64,
    usize,
    usize,
    bool,
    *const u64,
    usize,
    *mut u64,
    usize,
) -> Answer;

pub const ACCESSES: SarrayMany = c::ef_sarray_accesses;
pub const RANK1S: SarrayMany = c::ef_sarray_rank1s;
pub const SELECT1S: SarrayMany = c::ef_sarray_select1s;
pub const PREDECESSOR1S: SarrayMany = c::ef_sarray_predecessor1s;
pub const SUCCESSOR1S: SarrayMany = c::ef_sarray_successor1s;

/// How many questions of a vector of so many bits, with rank, were answered: all.
pub fn sarray_ask(
    ask: SarrayMany,
    image: &[u64],
    len: usize,
    args: &[u64],
    out: &mut [Answer],
) -> u64 {
    let (at, n, words) = (image.as_ptr(), image.len(), out.as_mut_ptr().cast());
    let (args, m) = (args.as_ptr(), args.len());
    let answered = unsafe { ask(at, n, len, true, args, m, words, 2 * out.len()) };
    answered.get().expect("a number")
}
