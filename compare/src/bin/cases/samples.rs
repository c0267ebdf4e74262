//! The cases of the means, the measured approach, the steepest slope and the slant range.

use crate::{faulty, of};
use compare::calls::{Call, Entry};
use compare::inputs::doubles::{self, neighbours};
use compare::inputs::random::Random;
use compare::inputs::recordings::{self, FREQUENCIES, INSTANTS, Recording};
use compare::inputs::tables::SECOND;

/// The cases of all four entries.
pub fn cases() -> Vec<(Entry, Call)> {
    let mut random = Random::new(80);
    let mut list = Vec::new();
    let entry = Entry::DownsampleData;
    list.extend(of(entry, means(&mut random)));
    list.extend(faulty::calls(&mut random, entry, true));
    for entry in [Entry::EstimateMeasuredPcaTime, Entry::SteepestSlope] {
        list.extend(of(entry, slopes(&mut random)));
        list.extend(faulty::calls(&mut random, entry, true));
    }
    list.extend(of(Entry::EstimateSlantRange, ranges(&mut random)));
    list
}

/// The samples, with areas of just their number.
fn call_of(instants: &[i64], frequencies: &[f64]) -> Call {
    Call {
        recording: Recording {
            instants: instants.to_vec(),
            frequencies: frequencies.to_vec(),
        },
        areas: [instants.len(); 2],
        ..Call::default()
    }
}

/// Means that overflow or are none, one sample, and one of each sort of instants, in areas that are longer.
fn means(random: &mut Random) -> Vec<Call> {
    let mut list = vec![
        call_of(&[1, 2, SECOND], &[1e308, 1e308, -1e308]),
        call_of(&[7, 7, 7], &[f64::INFINITY, f64::NEG_INFINITY, 1.0]),
        call_of(&[-SECOND], &[-0.0]),
        call_of(&[1999, -1999, 999, -999, 0], &[0.1, 0.2, 0.3, 0.4, 0.5]),
    ];
    list.extend(of_each_sort(random));
    for call in &mut list {
        call.areas = call.areas.map(|length| length + random.below(3));
    }
    list
}

/// One recording of each sort of instants, the sorts of frequencies in turn.
fn of_each_sort(random: &mut Random) -> Vec<Call> {
    let sorts = INSTANTS.into_iter().zip(FREQUENCIES.into_iter().cycle());
    let recordings = sorts.map(|(instants, frequencies)| {
        let count = 3 + random.below(10);
        recordings::of_count(random, instants, frequencies, count)
    });
    recordings
        .map(|recording| call_of(&recording.instants, &recording.frequencies))
        .collect()
}

/// A whole millisecond, slopes at the bound and past it, equal ones, too few samples, and one of each sort of instants.
fn slopes(random: &mut Random) -> Vec<Call> {
    let seconds: Vec<i64> = (0..5).map(|k| k * SECOND).collect();
    let mut list = vec![
        call_of(&[0, 500_000, 1_000_000], &[10.0, 5.0, 0.0]),
        call_of(&seconds, &[0.0, -120.0, -240.0, -360.0, -360.0]),
        call_of(&seconds, &[0.0, -120.0, -241.0, -241.0, -242.0]),
        call_of(&seconds, &[4.0, 4.0, 2.0, 2.0, 0.0]),
        call_of(&seconds, &[1.0, 2.0, 3.0, 4.0, 5.0]),
        call_of(&seconds[..4], &[f64::INFINITY, 0.0, 1.0, -1.0]),
        call_of(&seconds[..2], &[1.0, 0.0]),
        call_of(&seconds[..1], &[1.0]),
    ];
    list.extend(of_each_sort(random));
    list
}

/// Slopes about the least that counts, special numbers, then ordinary ones and patterns.
fn ranges(random: &mut Random) -> Vec<Call> {
    let mut pairs: Vec<(f64, f64)> = neighbours(0.1).map(|slope| (1e9, slope)).into();
    pairs.extend([0.0, -0.0, f64::NAN, f64::INFINITY].map(|slope| (1e9, slope)));
    pairs.extend([0.0, f64::MAX, f64::INFINITY, f64::NAN].map(|centre| (centre, -20.0)));
    pairs.extend((0..5).map(|_| (random.between(1e8, 1.2e10), random.between(-120.0, 0.0))));
    pairs.extend((0..4).map(|_| (random.pattern(), random.pick(&doubles::special()))));
    let calls = pairs.into_iter().map(|(centre, slope)| Call {
        centre,
        slope,
        ..Call::default()
    });
    calls.collect()
}
