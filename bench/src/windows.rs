//! The rows of the counts in weekly windows: lists with short and long gaps, 32 windows in any order, beside what a user of the Rust writes and beside the port's own walk.

use std::hint::black_box;

use sucds::mii_sequences::EliasFano;

use crate::port::{self, PORT};
use crate::record::{at_a_million, LONGEST};
use crate::table::{is_asked, Table};
use crate::{rust, Random, SIZES};

const WEEK: u64 = 604_800;
const WINDOWS: u64 = 32;

/// How many spans are asked at once.
const SPANS: usize = 10_000;

const ROWS: [&str; 3] = ["all times", "a day", "a span without a time"];

/// The longest gaps of the other lists of a million times, in seconds: from many starts a second to one in a year.
const GAPS: [usize; 6] = [1, 60, 6_000, 60_000, 600_000, 60_000_000];

/// Both sides' record of one list, and the windows.
pub struct Counted {
    n: usize,
    gap: usize,
    ef: EliasFano,
    image: Vec<u64>,
    windows: Vec<u64>,
    days: Vec<u64>,
    empty: Vec<u64>,
}

fn name(row: &str, n: usize, gap: usize) -> String {
    let list = if gap == LONGEST {
        String::new()
    } else {
        format!(", gaps up to {gap}")
    };
    format!("windows {row}, {n} times{list}")
}

/// Those of which a row is asked for.
pub fn lists(random: &mut Random) -> Vec<Counted> {
    let sizes = SIZES.into_iter().map(|n| (n, LONGEST));
    let gaps = GAPS.into_iter().map(|gap| (1_000_000, gap));
    sizes
        .chain(gaps)
        .filter_map(|(n, gap)| Counted::new(n, gap, random))
        .collect()
}

impl Counted {
    /// None where no row is asked for.
    fn new(n: usize, gap: usize, random: &mut Random) -> Option<Self> {
        if !ROWS.iter().any(|row| is_asked(&name(row, n, gap))) {
            return None;
        }
        let times = random.times(n, gap);
        let universe = times[n - 1] + 1;
        let ef = rust::record_build(rust::record_push(universe, &times), true);
        let image = rust::image_words(&ef, n);
        let windows = some_windows(random);
        let starts = random.places(SPANS, n - 1);
        let day = |&k: &usize| [times[k], times[k] + 86_400];
        let between = |&k: &usize| [times[k] + 1, times[k + 1]];
        Some(Self {
            n,
            gap,
            ef,
            image,
            windows,
            days: starts.iter().flat_map(day).collect(),
            empty: starts.iter().flat_map(between).collect(),
        })
    }

    /// Beside the Rust, with its rank index.
    pub fn rows(&self, table: &mut Table) {
        let [all, day, empty] = ROWS;
        self.row(table, all, &[0, u64::MAX], self.n);
        if self.gap == LONGEST {
            self.row(table, day, &self.days, SPANS);
            self.row(table, empty, &self.empty, SPANS);
        }
    }

    fn row(&self, table: &mut Table, row: &str, spans: &[u64], items: usize) {
        let what = name(row, self.n, self.gap);
        if !is_asked(&what) {
            return;
        }
        let rust = || rust::count_in_windows(black_box(&self.ef), &self.windows, spans);
        let port = |spans| port::count_in_windows(black_box(&self.image), &self.windows, spans);
        assert_eq!(rust(), port(spans), "{what}");
        table.row_after(&what, items, None, rust, || port(spans), || port(&[]));
    }

    /// All times, beside a plain walk over them by the port; both open the image first, which is taken off.
    pub fn walked(&self, table: &mut Table) {
        let [all, ..] = ROWS;
        let walk = |steps| PORT.record_walk(black_box(&self.image), steps);
        let count =
            |spans: &[u64]| port::count_in_windows(black_box(&self.image), &self.windows, spans);
        table.row_after_both(
            &name(all, self.n, self.gap),
            self.n,
            at_a_million(self.n, 2.5),
            (|| walk(self.n), || walk(0)),
            (|| count(&[0, u64::MAX]), || count(&[])),
        );
    }
}

/// 32 windows, one in each of as many parts of the week, in any order.
fn some_windows(random: &mut Random) -> Vec<u64> {
    let part = WEEK / WINDOWS;
    let mut window = |k: u64| {
        let a = k * part + random.below(6_000) as u64;
        [a, a + 1 + random.below(12_000) as u64]
    };
    let mut windows: Vec<[u64; 2]> = (0..WINDOWS).map(&mut window).collect();
    for k in (1..windows.len()).rev() {
        windows.swap(k, random.below(k + 1));
    }
    windows.concat()
}
