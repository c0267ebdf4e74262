//! The fit and the pass.

mod outside;
mod tolerances;

use crate::driver::{
    Ours, compare as compare_call, compare_lengths, compare_paper, compare_refusals,
};
use crate::ours::fit::{self as ours, Places};
use crate::tally::{Tally, Total};
use crate::timing::{Row, row, spacing};
use compare::calls::{Call, Entry};
use compare::checks::SAMPLES;
use compare::expected::FALLBACK;
use compare::inputs::approaches;
use compare::inputs::passes::{self, Size};
use compare::inputs::random::Random;
use compare::reference::{self, TabulatedOrbit};
use std::hint::black_box;

/// How many calls of each kind.
const CALLS: usize = 30;

/// How many calls whose clock offset is known.
const KNOWN: usize = 40;

/// The numbers of samples of the long calls, and how many of each.
const LONG: [usize; 2] = [SAMPLES - 1, SAMPLES];
const LONG_CALLS: usize = 12;

/// How many passes of each kind of measured approach, and how many of them at the least must be reported.
const APPROACHES: usize = 150;
const REPORTED: usize = 100;

/// How near a clock offset must be found: the search's last step, in seconds.
const LAST_STEP: f64 = 0.00001;

/// Compares the two entries.
pub fn compare(total: &mut Total) {
    compare_calls(total, Entry::FitSatellite, ours::fit, 60);
    compare_calls(total, Entry::Pass, ours::pass, 61);
    for (entry, ours) in [
        (Entry::FitSatellite, ours::fit as Ours),
        (Entry::Pass, ours::pass),
    ] {
        compare_paper(total, entry, ours);
        compare_lengths(total, entry, ours, SAMPLES + 1);
        compare_refusals(total, entry, ours);
    }
    compare_approaches(total);
    outside::compare(total);
    tolerances::compare(total);
}

/// Every kind of call, those whose clock offset is known, and long ones.
fn compare_calls(total: &mut Total, entry: Entry, ours: Ours, seed: u64) {
    let mut tally = Tally::new(entry.name());
    let mut random = Random::new(seed);
    for draw in passes::KINDS {
        for _ in 0..CALLS {
            let size = Size {
                rows: 40,
                samples: count(&mut random),
            };
            let call = draw(&mut random, size);
            compare_call(&mut tally, entry, ours, &call);
        }
    }
    for k in 0..KNOWN {
        let samples = 40 + random.below(560);
        compare_known(&mut tally, entry, ours, &mut random, samples, k % 2 == 1);
    }
    for samples in LONG {
        for k in 0..LONG_CALLS {
            compare_known(&mut tally, entry, ours, &mut random, samples, k % 3 == 2);
        }
    }
    tally.finish(total);
}

/// The instant that a pass is taken about, and whether it is the fallback, by the kinds of what the means' slopes can be.
fn compare_approaches(total: &mut Total) {
    let mut tally = Tally::new("pass, the measured approach");
    let mut random = Random::new(63);
    for kind in approaches::KINDS {
        let mut reported = 0;
        for _ in 0..APPROACHES {
            let size = Size {
                rows: 40,
                samples: 12 + random.below(24),
            };
            let call = (kind.draw)(&mut random, size);
            let expected = compare_call(&mut tally, Entry::Pass, ours::pass, &call);
            if let Some(fallback) = expected.results.get(FALLBACK) {
                let slopes = approaches::slopes(&call);
                let found = (!slopes.is_empty(), fallback.bits() == 1);
                assert!(found == (kind.sloped, kind.fallback), "{}", kind.name);
                note_slopes(&mut tally, &slopes, kind.fallback);
                reported += 1;
            }
        }
        assert!(reported >= REPORTED, "{}: {reported} reported", kind.name);
    }
    tally.finish(total);
}

/// Counts what the slopes of a reported pass are.
fn note_slopes(tally: &mut Tally, slopes: &[f64], fallback: bool) {
    let found = [
        ("the fallback", fallback),
        ("the fallback without a slope", slopes.is_empty()),
        (
            "level throughout",
            !slopes.is_empty() && slopes.iter().all(|&s| s == 0.0),
        ),
        ("with a slope of -inf", slopes.contains(&f64::NEG_INFINITY)),
        ("with a slope of inf", slopes.contains(&f64::INFINITY)),
        ("with a slope of NaN", slopes.iter().any(|s| s.is_nan())),
    ];
    for (what, _) in found.into_iter().filter(|(_, holds)| *holds) {
        tally.note(format!("reported, {what}"));
    }
}

/// How many samples: mostly few, up to three less than there may be, since some kinds add three.
fn count(random: &mut Random) -> usize {
    match random.below(10) {
        0 => 1 + random.below(SAMPLES - 3),
        1..4 => 1 + random.below(150),
        4 => 1 + random.below(4),
        _ => 1 + random.below(40),
    }
}

/// So many samples, one to the second, and a table that is long enough for them.
fn long_enough(samples: usize) -> Size {
    Size {
        rows: 30 + samples / 60,
        samples,
    }
}

/// A call without noise: counted too is whether the search finds the clock offset to its last step.
fn compare_known(
    tally: &mut Tally,
    entry: Entry,
    ours: Ours,
    random: &mut Random,
    samples: usize,
    uneven: bool,
) {
    let (call, late) = passes::known(random, long_enough(samples), uneven);
    let expected = compare_call(tally, entry, ours, &call);
    tally.note("with a known clock offset");
    let found = expected
        .results
        .first()
        .map(|word| f64::from_bits(word.bits()));
    if found.is_some_and(|found| (found - late).abs() <= LAST_STEP) {
        tally.note("with a known clock offset, found to 10 µs");
    }
}

/// Times the fit of 600 samples and of as many as there may be, with even and uneven tables, and a pass.
pub fn time() -> Vec<Row> {
    let mut rows = Vec::new();
    for uneven in [false, true] {
        for samples in [600, SAMPLES] {
            rows.push(time_fit(samples, uneven));
        }
    }
    rows.push(time_pass());
    rows
}

/// A call whose clock is so little late that there is one centre alone: 603 candidates.
fn timed_call(samples: usize, uneven: bool) -> Call {
    let mut random = Random::new(62);
    loop {
        let (call, late) = passes::known(&mut random, long_enough(samples), uneven);
        if late.abs() < 4.0 {
            return call;
        }
    }
}

/// The fit of one call.
fn time_fit(samples: usize, uneven: bool) -> Row {
    let name = format!("fit_satellite, {samples} {}", spacing(uneven));
    let call = timed_call(samples, uneven);
    let orbit = reference::orbit(&call.table);
    let samples = reference::samples(&call.recording);
    let measured = reference::instant(call.instant);
    let mut places = Places::marked();
    row(
        name,
        &[()],
        |()| ours::write_fit(&call, black_box(&mut places)),
        |()| orbit.fit(&samples, call.observer, call.centre, measured),
    )
}

/// The pass of one call with as many means as samples.
fn time_pass() -> Row {
    let call = timed_call(600, false);
    let orbit = reference::orbit(&call.table);
    let samples = reference::samples(&call.recording);
    let mut instants = [0; SAMPLES];
    let mut frequencies = [0.0; SAMPLES];
    let mut places = Places::marked();
    row(
        "pass, 600 even",
        &[()],
        |()| {
            let areas = black_box((&mut instants, &mut frequencies));
            ours::write_pass(&call, areas.0, areas.1, &mut places)
        },
        |()| reference::pass(&orbit, &samples, call.observer, call.centre),
    )
}
