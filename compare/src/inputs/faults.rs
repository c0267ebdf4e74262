//! What can be wrong with the inputs of a call: every way of failing each check, and the values that just pass.

use super::doubles::{nans, neighbours, power_of_two};
use super::integers::INSTANT_LIMIT;
use super::orbits::{EARTH, Orbit};
use super::random::Random;
use super::recordings::Recording;
use super::tables::{PRESENT, SECOND, Table};
use super::tolerances;
use crate::calls::{Call, Entry, Part};
use crate::checks::{COORDINATES, FARTHEST, NEAREST, SAMPLES};
use crate::reference::TOLERANCE;
use std::array::from_fn;

/// A change of one part of a call.
pub struct Change {
    /// The check that fails after it, or 0 if it just passes.
    pub number: u8,
    pub part: Part,
    make: Box<dyn Fn(&mut Call)>,
}

impl Change {
    /// The call with the change made.
    pub fn made(&self, call: &Call) -> Call {
        let mut changed = call.clone();
        (self.make)(&mut changed);
        changed
    }
}

/// A change that fails a check.
fn fault(number: u8, part: Part, make: impl Fn(&mut Call) + 'static) -> Change {
    let make = Box::new(make);
    Change { number, part, make }
}

/// A change that every check lets pass.
fn pass(part: Part, make: impl Fn(&mut Call) + 'static) -> Change {
    fault(0, part, make)
}

/// Which one of a list is changed, from its length.
type Place = fn(usize) -> usize;

/// The first, a middle and the last one.
const PLACES: [Place; 3] = [|_| 0, |length| length / 2, |length| length - 1];

/// A call that passes every check, with so many rows and samples.
pub fn sound(rows: usize, samples: usize) -> Call {
    let orbit = Orbit::low(&mut Random::new(20));
    Call {
        table: Table::even(&orbit, PRESENT, 60 * SECOND, rows),
        recording: mixed(samples),
        model: from_fn(|k| [1.75e9, 1.75e9 + 540.0, 7e6, -3e6, 1e5][k % 5]),
        observer: orbit.observer(&mut Random::new(21), 300.0),
        centre: 1e9,
        slope: -20.0,
        instant: PRESENT + 310 * SECOND,
        tolerance: TOLERANCE,
        areas: [samples + 3, samples + 2],
    }
}

/// Samples two or three to the second, no two neighbours in order, falling in frequency.
fn mixed(samples: usize) -> Recording {
    let steps: Vec<usize> = (0..samples).map(|k| k ^ 1).collect();
    let instants = steps
        .iter()
        .map(|&k| PRESENT + 300 * SECOND + k as i64 * SECOND * 2 / 5);
    let frequencies = steps.iter().map(|&k| 1e9 - 50.0 * k as f64);
    Recording {
        instants: instants.collect(),
        frequencies: frequencies.collect(),
    }
}

/// Every fault; made after one of a higher number, it leaves that one standing where it can.
pub fn all() -> Vec<Change> {
    let mut list = Vec::new();
    list.extend(miscounts());
    list.extend(wrong_samples());
    list.extend(short_areas());
    list.extend(instants_beyond());
    list.extend(instants_that_do_not_rise());
    list.extend(misplacements());
    list.extend(wrong_frequencies());
    list.extend(wrong_tolerances());
    list
}

/// Check 1: the number of rows, and the number of components.
fn miscounts() -> Vec<Change> {
    let [least, greatest] = COORDINATES;
    let mut list: Vec<Change> = [0, 1, least - 1, greatest + 1]
        .map(|rows| {
            fault(1, Part::Table, move |call| {
                resize_table(&mut call.table, rows)
            })
        })
        .into();
    list.extend([1, 3, usize::MAX].map(|fewer| {
        fault(1, Part::Table, move |call| {
            let positions = &mut call.table.positions;
            positions.truncate(positions.len().saturating_sub(fewer));
        })
    }));
    list.extend([1, 3].map(|more| {
        fault(1, Part::Table, move |call| {
            call.table.positions.extend(vec![EARTH; more]);
        })
    }));
    list
}

/// Check 2: the number of samples (among them as many as a table may have coordinates), and the number of frequencies.
fn wrong_samples() -> Vec<Change> {
    let mut list: Vec<Change> = [0, SAMPLES + 1, COORDINATES[1]]
        .map(|samples| {
            fault(2, Part::Samples, move |call| {
                resize_recording(&mut call.recording, samples);
            })
        })
        .into();
    list.push(fault(2, Part::Samples, |call| {
        call.recording.frequencies.clear()
    }));
    list.push(fault(2, Part::Samples, |call| {
        call.recording.instants.clear()
    }));
    list.push(fault(2, Part::Samples, |call| {
        call.recording.frequencies.push(1e9)
    }));
    list.push(fault(2, Part::Samples, |call| {
        call.recording.frequencies.pop();
    }));
    list
}

/// Check 3: either area or both short by one, or empty.
fn short_areas() -> Vec<Change> {
    let lengths: [fn(usize) -> usize; 2] = [|samples| samples.saturating_sub(1), |_| 0];
    let sides: [&'static [usize]; 3] = [&[0], &[1], &[0, 1]];
    let mut list = Vec::new();
    for length in lengths {
        list.extend(sides.map(|side| {
            fault(3, Part::Areas, move |call| {
                let short = length(call.recording.instants.len());
                side.iter().for_each(|&k| call.areas[k] = short);
            })
        }));
    }
    list
}

/// Check 4: one past either end and the ends of the format, at each place.
fn instants_beyond() -> Vec<Change> {
    let mut list = Vec::new();
    for beyond in [INSTANT_LIMIT + 1, -INSTANT_LIMIT - 1, i64::MAX, i64::MIN] {
        list.extend(instants_at(4, beyond));
    }
    list
}

/// The instant at each place of a table and of samples, and where one is asked for.
fn instants_at(number: u8, n: i64) -> Vec<Change> {
    let mut list = vec![fault(number, Part::Instant, move |call| call.instant = n)];
    list.extend(PLACES.map(|place| {
        fault(number, Part::Table, move |call| {
            put(&mut call.table.instants, place, n);
        })
    }));
    list.extend(PLACES.map(|place| {
        fault(number, Part::Samples, move |call| {
            put(&mut call.recording.instants, place, n);
        })
    }));
    list
}

/// Check 5: equal neighbours, one later by a nanosecond than the next, and two exchanged.
fn instants_that_do_not_rise() -> Vec<Change> {
    let faults: [fn(&mut [i64]); 3] = [
        |pair| pair[1] = pair[0],
        |pair| pair[0] = pair[1] + 1,
        |pair| pair.swap(0, 1),
    ];
    faults
        .into_iter()
        .flat_map(|make| at_neighbours(5, make))
        .collect()
}

/// The change at the first, middle and last pair of neighbours.
fn at_neighbours(number: u8, make: fn(&mut [i64])) -> [Change; 3] {
    PLACES.map(|place| {
        fault(number, Part::Table, move |call| {
            let instants = &mut call.table.instants;
            let k = place(instants.len() - 1);
            make(&mut instants[k..k + 2]);
        })
    })
}

/// Check 6: each component not a number, infinite or too great, and all three too small.
fn misplacements() -> Vec<Change> {
    let too_far = neighbours(FARTHEST)[2];
    let [below, _, _] = neighbours(NEAREST);
    let mut list = Vec::new();
    for x in [f64::NAN, f64::INFINITY, f64::MAX, too_far] {
        for axis in 0..3 {
            list.extend(places_at(6, move |place| place[axis] = x));
            list.extend(places_at(6, move |place| place[axis] = -x));
        }
    }
    for near in [[0.0; 3], [below, -below, below], [6378.0, -1.0, -0.0]] {
        list.extend(places_at(6, move |place| place.copy_from_slice(&near)));
    }
    list
}

/// The change to the coordinate at each place, and to the observer.
fn places_at(number: u8, make: impl Fn(&mut [f64]) + Copy + 'static) -> Vec<Change> {
    let mut list = vec![fault(number, Part::Observer, move |call| {
        make(&mut call.observer);
    })];
    list.extend(PLACES.map(|place| {
        fault(number, Part::Table, move |call| {
            let coordinates = call.table.positions.as_chunks_mut::<3>().0;
            let k = place(coordinates.len());
            make(&mut coordinates[k]);
        })
    }));
    list
}

/// Check 7: sample frequencies that are not finite; centre frequencies that are not finite or not above zero.
fn wrong_frequencies() -> Vec<Change> {
    let infinite = [f64::NAN, f64::INFINITY, f64::NEG_INFINITY];
    let mut list = Vec::new();
    for x in infinite {
        list.extend(frequencies_at(7, x));
        list.push(centre_of(7, x));
    }
    list.extend([0.0, -0.0, -1e9, -power_of_two(-1074)].map(|x| centre_of(7, x)));
    list
}

/// The frequency at each place of the samples.
fn frequencies_at(number: u8, x: f64) -> [Change; 3] {
    PLACES.map(|place| {
        fault(number, Part::Samples, move |call| {
            put(&mut call.recording.frequencies, place, x);
        })
    })
}

/// The centre frequency.
fn centre_of(number: u8, x: f64) -> Change {
    fault(number, Part::Centre, move |call| call.centre = x)
}

/// Check 16: tolerances that are not finite or below zero.
fn wrong_tolerances() -> Vec<Change> {
    let mut list = nans();
    list.extend([f64::INFINITY, f64::NEG_INFINITY]);
    list.extend([-power_of_two(-1074), -1e-9, -1.0, f64::MIN]);
    list.into_iter().map(|x| tolerance_of(16, x)).collect()
}

/// The tolerance.
fn tolerance_of(number: u8, x: f64) -> Change {
    fault(number, Part::Tolerance, move |call| call.tolerance = x)
}

/// Every value that just passes.
pub fn just_passing() -> Vec<Change> {
    let mut list = Vec::new();
    list.extend(
        COORDINATES.map(|rows| pass(Part::Table, move |call| resize_table(&mut call.table, rows))),
    );
    list.extend([1, SAMPLES].map(|samples| {
        pass(Part::Samples, move |call| {
            resize_recording(&mut call.recording, samples);
            call.areas = [samples; 2];
        })
    }));
    list.push(pass(Part::Areas, |call| {
        call.areas = [call.recording.instants.len(); 2]
    }));
    list.extend(ends_of_the_range());
    list.extend(at_neighbours(0, |pair| pair[1] = pair[0] + 1));
    list.extend(places_that_just_pass());
    for x in [f64::MAX, f64::MIN, -0.0, power_of_two(-1074)] {
        list.extend(frequencies_at(0, x));
    }
    list.extend([f64::MAX, power_of_two(-1074)].map(|x| centre_of(0, x)));
    list.extend(tolerances::values().map(|x| tolerance_of(0, x)));
    list.push(tolerance_of(0, f64::MAX));
    list
}

/// Instants at both ends of the range; a table begins or stops there.
fn ends_of_the_range() -> Vec<Change> {
    let mut list = Vec::new();
    for end in [INSTANT_LIMIT, -INSTANT_LIMIT] {
        let keeps_rising = |change: &Change| change.part != Part::Table;
        list.extend(instants_at(0, end).into_iter().filter(keeps_rising));
    }
    list.push(pass(Part::Table, |call| {
        call.table.instants[0] = -INSTANT_LIMIT
    }));
    list.push(pass(Part::Table, |call| {
        put(&mut call.table.instants, |length| length - 1, INSTANT_LIMIT);
    }));
    list
}

/// Components at the greatest magnitude, and places with one at the least and the others below it.
fn places_that_just_pass() -> Vec<Change> {
    let [below, _, _] = neighbours(NEAREST);
    let mut list = Vec::new();
    for axis in 0..3 {
        for sign in [1.0, -1.0] {
            list.extend(places_at(0, move |place| place[axis] = sign * FARTHEST));
            for rest in [0.0, below] {
                list.extend(places_at(0, move |place| {
                    place.fill(rest);
                    place[axis] = sign * NEAREST;
                }));
            }
        }
    }
    list
}

/// Calls that pass every check of the inputs and are refused after these, each with its number: windows without an inverse, by 8 or, where no sample has a
/// position, by 10; and squares of residuals that overflow, by 10.
pub fn refused_later(entry: Entry) -> Vec<(u8, Call)> {
    let sound = sound(12, 7);
    let mut close = sound.clone();
    close.table.instants[6] = close.table.instants[5] + 1;
    let mut overflowing = sound;
    for pair in overflowing.recording.frequencies.chunks_mut(2) {
        pair.fill(1e300);
        pair[0] = -1e300;
    }
    match entry {
        Entry::GetChebyshevModel | Entry::PropagateEcef => vec![(8, close)],
        Entry::FitSatellite | Entry::Pass => vec![(10, close), (10, overflowing)],
        _ => Vec::new(),
    }
}

/// Writes to the place, if the list has one.
fn put<T>(list: &mut [T], place: Place, value: T) {
    if !list.is_empty() {
        list[place(list.len())] = value;
    }
}

/// The table cut or continued to so many rows.
fn resize_table(table: &mut Table, rows: usize) {
    let from = table.instants.len();
    let more = sound(rows, 1).table;
    table.instants.truncate(rows);
    table.positions.truncate(3 * rows);
    if rows > from {
        table.instants.extend(&more.instants[from..]);
        table.positions.extend(&more.positions[3 * from..]);
    }
}

/// The recording cut or continued to so many samples.
fn resize_recording(recording: &mut Recording, samples: usize) {
    let from = recording.instants.len();
    let more = mixed(samples);
    recording.instants.truncate(samples);
    recording.frequencies.truncate(samples);
    if samples > from {
        recording.instants.extend(&more.instants[from..]);
        recording.frequencies.extend(&more.frequencies[from..]);
    }
}
