//! The fit and the pass at other tolerances than the Rust's.

use crate::driver::Ours;
use crate::ours::fit as ours;
use crate::tally::{Tally, Total};
use crate::tolerance::{ANOTHER, WINDOWS, compare as compare_call, note_window};
use compare::calls::{Call, Entry};
use compare::expected::APPROACH;
use compare::inputs::passes::{self, Size};
use compare::inputs::random::Random;
use compare::inputs::tolerances;

/// How many calls of each kind, for each tolerance.
const CALLS: usize = 2;

/// How many calls by tables whose gaps are off by about the tolerance, for each.
const ABOUT: usize = 20;

/// How many calls of which one window's own largest deviation is the tolerance, each at three.
const AT_THE_DEVIATION: usize = 30;

/// How many rows the tables have, and up to how many samples there are.
const ROWS: usize = 20;
const SAMPLES: usize = 16;

/// The refusals that only one of two tolerances gives.
const REFUSALS: [&str; 2] = [
    "answered, refused by 10 at 1.0",
    "refused by 10, answered at 1.0",
];

/// Compares both entries.
pub fn compare(total: &mut Total) {
    compare_entry(total, Entry::FitSatellite, ours::fit, 66);
    compare_entry(total, Entry::Pass, ours::pass, 67);
}

/// Every kind of call, then tables about the tolerance.
fn compare_entry(total: &mut Total, entry: Entry, ours: Ours, seed: u64) {
    let mut tally = Tally::new(format!("{}, other tolerances", entry.name()));
    let mut random = Random::new(seed);
    for tolerance in tolerances::values() {
        for draw in passes::KINDS {
            for _ in 0..CALLS {
                let size = size(&mut random);
                let call = draw(&mut random, size);
                compare_one(&mut tally, entry, ours, &call.at(tolerance));
            }
        }
        for _ in 0..ABOUT {
            let call = about(&mut random, tolerance);
            compare_one(&mut tally, entry, ours, &call);
        }
    }
    for _ in 0..AT_THE_DEVIATION {
        let near = random.pick(&tolerances::values());
        let call = about(&mut random, near);
        for tolerance in tolerances::about_the_deviation(&call.table, call.instant) {
            compare_one(&mut tally, entry, ours, &call.at(tolerance));
        }
    }
    tally.must_have_noted(&WINDOWS);
    tally.must_have_noted(&[ANOTHER]);
    tally.must_have_noted(&REFUSALS);
    tally.finish(total);
}

/// A few samples.
fn size(random: &mut Random) -> Size {
    Size {
        rows: ROWS,
        samples: 1 + random.below(SAMPLES),
    }
}

/// A satellite heard by a table whose gaps are off by about the tolerance.
fn about(random: &mut Random, tolerance: f64) -> Call {
    let samples = 4 + random.below(SAMPLES - 3);
    tolerances::heard(random, tolerance, ROWS, samples)
}

/// One call, and the window about the instant that a report was taken about.
fn compare_one(tally: &mut Tally, entry: Entry, ours: Ours, call: &Call) {
    let expected = compare_call(tally, entry, ours, call);
    if let Some(approach) = expected.results.get(APPROACH) {
        note_window(tally, call, approach.bits() as i64);
    }
}
