//! The rows of spans side by side: five spans over all times of a record, beside what a user of the Rust writes and beside the port's own walk.

use std::hint::black_box;

use sucds::mii_sequences::EliasFano;

use crate::port::{self, PORT};
use crate::record::LONGEST;
use crate::table::{is_asked, Table};
use crate::{rust, Random, SIZES};

/// As many as winters in the data sheet.
const SPANS: u64 = 5;

/// Both sides' record of one list, and the seconds that cut it.
pub struct Cut {
    n: usize,
    ef: EliasFano,
    image: Vec<u64>,
    seconds: Vec<u64>,
}

fn name(n: usize) -> String {
    format!("spans side by side, {n} times")
}

/// Those of which a row is asked for.
pub fn lists(random: &mut Random) -> Vec<Cut> {
    SIZES
        .into_iter()
        .filter(|&n| is_asked(&name(n)))
        .map(|n| Cut::new(n, random))
        .collect()
}

impl Cut {
    fn new(n: usize, random: &mut Random) -> Self {
        let times = random.times(n, LONGEST);
        let universe = times[n - 1] + 1;
        let ef = rust::record_build(rust::record_push(universe, &times), true);
        let image = rust::image_words(&ef, n);
        let seconds = (0..=SPANS).map(|k| k * universe.div_ceil(SPANS)).collect();
        Self {
            n,
            ef,
            image,
            seconds,
        }
    }

    /// Beside the Rust, which has a rank index for the first time of each span.
    pub fn rows(&self, table: &mut Table) {
        let rust = || rust::compare_spans(black_box(&self.ef), &self.seconds);
        let port = |seconds| port::compare_spans(black_box(&self.image), seconds);
        assert_eq!(rust(), port(&self.seconds), "{}", name(self.n));
        table.row_after(&name(self.n), self.n, None, rust, || port(&self.seconds), || port(&[]));
    }

    /// Beside a plain walk over the times by the port; both open the image first, which is taken off.
    pub fn walked(&self, table: &mut Table) {
        let walk = |steps| PORT.record_walk(black_box(&self.image), steps);
        let port = |seconds| port::compare_spans(black_box(&self.image), seconds);
        table.row_after_both(
            &name(self.n),
            self.n,
            None,
            (|| walk(self.n), || walk(0)),
            (|| port(&self.seconds), || port(&[])),
        );
    }
}
