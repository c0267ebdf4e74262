//! Faults of each refusal alone and together, and areas of every length.

use super::damage::put;
use super::places::{SATELLITE, YEAR_2024, small};
use super::{Coordinate, Filled, Sample, epoch_line, position_line};
use crate::description::HEADER;
use crate::description::calendar::{Calendar, SECOND};
use crate::files::FileCall;

/// A change of a file.
type Change = fn(&mut Sample);

/// The line of the first epoch.
const EPOCH: usize = HEADER.len();

/// The line of the satellite's first record.
const RECORD: usize = EPOCH + 1;

/// What is not by the description, under any time system.
const NOT_BY_THE_DESCRIPTION: [Change; 20] = [
    |sample| sample.lines[0][1] = b'd',
    |sample| sample.lines[6][1] = b'+',
    |sample| sample.lines[7][1] = b' ',
    |sample| sample.lines[21].truncate(1),
    |sample| sample.lines[12].truncate(11),
    |sample| sample.lines.truncate(21),
    |sample| sample.lines.truncate(0),
    |sample| sample.lines.insert(15, Vec::new()),
    |sample| put(&mut sample.lines[EPOCH], 4, b"0000"),
    |sample| put(&mut sample.lines[EPOCH], 9, b" 2 30"),
    |sample| put(&mut sample.lines[EPOCH], 15, b"24"),
    |sample| put(&mut sample.lines[EPOCH], 21, b"60.0"),
    |sample| put(&mut sample.lines[EPOCH], 23, b","),
    |sample| sample.lines[EPOCH].truncate(30),
    |sample| put(&mut sample.lines[RECORD], 18, b" "),
    |sample| put(&mut sample.lines[RECORD], 40, b"0"),
    |sample| put(&mut sample.lines[RECORD], 5, b"+"),
    |sample| sample.lines[RECORD].truncate(45),
    |sample| sample.lines.swap(EPOCH, RECORD),
    |sample| sample.lines.insert(EPOCH + 4, b"*".to_vec()),
];

/// Other time systems.
const OTHER_TIME_SYSTEM: [Change; 8] = [
    |sample| put(&mut sample.lines[12], 10, b"GLO"),
    |sample| put(&mut sample.lines[12], 10, b"TAI"),
    |sample| put(&mut sample.lines[12], 10, b"utc"),
    |sample| put(&mut sample.lines[12], 10, b"GPs"),
    |sample| put(&mut sample.lines[12], 10, b"UT "),
    |sample| put(&mut sample.lines[12], 10, b"   "),
    |sample| put(&mut sample.lines[12], 10, b"\0\0\0"),
    |sample| put(&mut sample.lines[12], 10, b"GP\xff"),
];

/// Files of which no record is kept, and in which a fault of 11 can hide.
const HIDDEN: [Change; 3] = [
    |sample| sample.satellite = *b"G07",
    |sample| sample.satellite = *b"G0\n",
    |sample| {
        let place = EPOCH.min(sample.lines.len());
        sample.lines.insert(place, b"EOF".to_vec());
    },
];

/// The lengths of the areas of a file with two records; only the first two are enough.
const AREAS: [[usize; 2]; 7] = [[2, 6], [3, 9], [1, 6], [2, 5], [0, 0], [0, 6], [2, 0]];

/// All positions of the satellite become absent: no record is kept.
fn without_positions(sample: &mut Sample) {
    let zero = Coordinate {
        minus: true,
        size: 0,
    };
    let line = position_line(SATELLITE, [zero; 3], Filled::Blanks);
    for k in sample.looked_at() {
        if sample.lines[k].starts_with(b"P") {
            sample.lines[k].clone_from(&line);
        }
    }
}

/// None or one fault of each refusal, every choice of them, with the refusal that must come, or 0.
pub fn together(visit: &mut impl FnMut(u8, FileCall)) {
    for first in with_none(&NOT_BY_THE_DESCRIPTION) {
        for second in with_none(&OTHER_TIME_SYSTEM) {
            for third in [None, Some(without_positions as Change)] {
                for (k, areas) in AREAS.into_iter().enumerate() {
                    let refusal = match (first, second, third) {
                        (Some(_), _, _) => 11,
                        (None, Some(_), _) => 12,
                        (None, None, None) if k < 2 => 0,
                        _ => 13,
                    };
                    for sound in sound() {
                        let changed = changed(&sound, [third, second, first]);
                        visit(refusal, with_areas(&changed, areas));
                    }
                }
            }
        }
    }
}

/// The same with what lets a record be absent by hiding it.
pub fn hidden(visit: &mut impl FnMut(FileCall)) {
    for first in with_none(&NOT_BY_THE_DESCRIPTION) {
        for second in with_none(&OTHER_TIME_SYSTEM) {
            for third in HIDDEN {
                for sound in sound() {
                    let changed = changed(&sound, [second, first, Some(third)]);
                    visit(with_areas(&changed, [2, 6]));
                    visit(with_areas(&changed, [0, 0]));
                }
            }
        }
    }
}

/// The files that the faults are made in.
fn sound() -> [Sample; 2] {
    [b"UTC", b"GPS"].map(|system| small(*system, Filled::Blanks, b"", b"EOF"))
}

/// No change, and then each of the list.
fn with_none(list: &[Change]) -> Vec<Option<Change>> {
    let changes = list.iter().copied().map(Some);
    [None].into_iter().chain(changes).collect()
}

/// The file with these changes made, one after the other.
fn changed(sound: &Sample, changes: [Option<Change>; 3]) -> Sample {
    let mut sample = sound.clone();
    for change in changes.into_iter().flatten() {
        change(&mut sample);
    }
    sample
}

/// The call with areas of these lengths.
fn with_areas(sample: &Sample, areas: [usize; 2]) -> FileCall {
    FileCall {
        areas,
        ..sample.call()
    }
}

/// Files of 1 to 8 records with areas of every length from none to more than enough.
pub fn areas(visit: &mut impl FnMut(FileCall)) {
    for records in 1..=8 {
        let sample = of_records(records);
        for instants in 0..=records + 3 {
            for positions in 0..=3 * records + 4 {
                visit(with_areas(&sample, [instants, positions]));
            }
        }
    }
}

/// A file of so many records, each at an epoch of its own, and some positions of three zeros, which need no room.
pub fn of_records(count: usize) -> Sample {
    let mut sample = small(*b"GPS", Filled::Blanks, b"", b"");
    sample.lines.truncate(EPOCH);
    for k in 0..count {
        let at = YEAR_2024 + k as i128 * 900 * SECOND;
        sample
            .lines
            .push(epoch_line(&Calendar::of(at), Filled::Blanks));
        for size in [0, 1 + k as u64] {
            let position = [size; 3].map(|size| Coordinate { minus: false, size });
            sample
                .lines
                .push(position_line(SATELLITE, position, Filled::Blanks));
        }
    }
    sample
}
