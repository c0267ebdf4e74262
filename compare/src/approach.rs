//! The measured approach, the steepest slope and the slant range.

use crate::driver::{
    Ours, compare as compare_call, compare_lengths, compare_paper, compare_refusals,
};
use crate::ours::approach as ours;
use crate::tally::{Tally, Total};
use crate::timing::{Row, row};
use compare::calls::{Call, Entry};
use compare::checks::SAMPLES;
use compare::inputs::doubles::{self, neighbours};
use compare::inputs::random::Random;
use compare::inputs::recordings::{self, FREQUENCIES, INSTANTS, Recording};
use compare::reference;
use std::hint::black_box;

/// How many recordings of each sort of instants with each sort of frequencies.
const RECORDINGS: usize = 300;

/// How many random slant ranges of each kind.
const RANGES: usize = 100_000;

/// Compares the three entries.
pub fn compare(total: &mut Total) {
    compare_recordings(total);
    compare_ranges(total);
    compare_paper(total, Entry::EstimateSlantRange, ours::slant_range);
    for (entry, ours) in [
        (Entry::EstimateMeasuredPcaTime, ours::approach as Ours),
        (Entry::SteepestSlope, ours::slope),
    ] {
        compare_paper(total, entry, ours);
        compare_lengths(total, entry, ours, 1);
        compare_refusals(total, entry, ours);
    }
}

/// Approach and slope of every sort of recording.
fn compare_recordings(total: &mut Total) {
    let mut approaches = Tally::new("estimate_measured_pca_time");
    let mut slopes = Tally::new("steepest_slope");
    let mut random = Random::new(40);
    for instants in INSTANTS {
        for frequencies in FREQUENCIES {
            for _ in 0..RECORDINGS {
                let call = Call {
                    recording: recordings::draw(&mut random, instants, frequencies),
                    ..Call::default()
                };
                let entry = Entry::EstimateMeasuredPcaTime;
                compare_call(&mut approaches, entry, ours::approach, &call);
                let entry = Entry::SteepestSlope;
                let expected = compare_call(&mut slopes, entry, ours::slope, &call);
                if expected.results[0].bits() != 0 {
                    slopes.note("below zero");
                }
            }
        }
    }
    approaches.finish(total);
    slopes.finish(total);
}

/// The slant range of all pairs of special doubles, about the least slope, of ordinary numbers and of any patterns.
fn compare_ranges(total: &mut Total) {
    let mut tally = Tally::new("estimate_slant_range");
    let mut random = Random::new(41);
    let mut special = doubles::special();
    special.extend(neighbours(0.1));
    special.extend(neighbours(-0.1));
    for &centre in &special {
        for &slope in &special {
            compare_range(&mut tally, centre, slope);
        }
    }
    for _ in 0..RANGES {
        let slope = random.between(-120.0, 0.0);
        compare_range(&mut tally, random.between(1e6, 1.2e10), slope);
        let slope = random.pick(&neighbours(-0.1));
        compare_range(&mut tally, random.pattern(), slope);
        compare_range(&mut tally, random.pattern(), random.pattern());
    }
    tally.finish(total);
}

/// One slant range.
fn compare_range(tally: &mut Tally, centre: f64, slope: f64) {
    let call = Call {
        centre,
        slope,
        ..Call::default()
    };
    compare_call(tally, Entry::EstimateSlantRange, ours::slant_range, &call);
}

/// Times approach and slope of as many samples as there may be, and the slant range.
pub fn time() -> Vec<Row> {
    let mut random = Random::new(42);
    let instants = recordings::in_order(&mut random, SAMPLES);
    let frequencies = recordings::falling(&mut random, &instants);
    let recording = Recording {
        instants,
        frequencies,
    };
    let samples = reference::samples(&recording);
    let slopes: Vec<f64> = (0..1024).map(|_| random.between(-120.0, 0.0)).collect();
    let mut instant = 0;
    let mut slope = 0.0;
    vec![
        row(
            format!("estimate_measured_pca_time, {SAMPLES}"),
            &[()],
            |()| ours::write_approach(&recording, black_box(&mut instant)),
            |()| reference::approach(&samples),
        ),
        row(
            format!("steepest_slope, {SAMPLES}"),
            &[()],
            |()| ours::write_slope(&recording, black_box(&mut slope)),
            |()| reference::steepest_slope(&samples),
        ),
        row(
            "estimate_slant_range",
            &slopes,
            |&slope| ours::range(1e9, slope),
            |&slope| reference::slant_range(1e9, slope),
        ),
    ]
}
