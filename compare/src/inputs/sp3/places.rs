//! Small files that are damaged at every place: each column hit, each line cut, lost, doubled, swapped, put in.

use super::damage::HITS;
use super::{Coordinate, Filled, Sample, bare_header, epoch_line, position_line};
use crate::description::calendar::Calendar;
use crate::files::FileCall;

/// The satellite that is asked for.
pub const SATELLITE: [u8; 3] = *b"G05";

/// Another one, whose lines are passed over.
const OTHER: [u8; 3] = *b"G06";

/// 2024-01-01, in nanoseconds since 1970.
pub const YEAR_2024: i128 = 1_704_067_200_000_000_000;

/// A record's coordinates.
const FIRST: [Coordinate; 3] = [
    written(false, 12_345_678_901),
    written(true, 2_345_678_902),
    written(false, 0),
];

/// Another record's, as long as they can be.
const SECOND: [Coordinate; 3] = [
    written(true, 999_999_999_999),
    written(false, 9_999_999_999_999),
    written(true, 1),
];

/// A coordinate as it is written.
const fn written(minus: bool, size: u64) -> Coordinate {
    Coordinate { minus, size }
}

/// A small file: two epochs, two satellites, a velocity.
pub fn small(time_system: [u8; 3], filled: Filled, tail: &[u8], last: &[u8]) -> Sample {
    let mut lines = bare_header(time_system);
    let record = |satellite, position| {
        let mut line = position_line(satellite, position, filled);
        line.extend(tail);
        line
    };
    let second = 900_000_000_000 + 12_345_678_900;
    lines.push(epoch_line(&Calendar::of(YEAR_2024), filled));
    lines.push(record(SATELLITE, FIRST));
    lines.push([b"V".as_slice(), &record(SATELLITE, SECOND)[1..]].concat());
    lines.push(record(OTHER, FIRST));
    lines.push(epoch_line(&Calendar::of(YEAR_2024 + second), filled));
    lines.push(record(OTHER, SECOND));
    lines.push(record(SATELLITE, SECOND));
    if !last.is_empty() {
        lines.push(last.to_vec());
    }
    Sample {
        lines,
        end: b"\n",
        ended: !last.is_empty(),
        satellite: SATELLITE,
        leap_seconds: 18,
    }
}

/// The small file in every style.
pub fn all_small() -> Vec<Sample> {
    let mut list = Vec::new();
    for time_system in [b"UTC", b"GPS", b"GLO"] {
        for filled in [Filled::Blanks, Filled::Zeros] {
            list.push(small(*time_system, filled, b"", b""));
            list.push(small(*time_system, filled, b" 123456.789012", b"EOF"));
            list.push(Sample {
                end: b"\r\n",
                ..small(*time_system, filled, b"", b"EOF")
            });
        }
    }
    list
}

/// Every column of every line with each of these bytes.
pub fn columns_hit(sample: &Sample, bytes: &[u8], visit: &mut impl FnMut(FileCall)) {
    for line in 0..sample.lines.len() {
        for column in 0..sample.lines[line].len() {
            for &byte in bytes {
                let mut hit = sample.clone();
                hit.lines[line][column] = byte;
                visit(hit.call());
            }
        }
    }
}

/// Every line cut at every length, and lengthened by each of the bytes; the file cut at every length.
pub fn cut(sample: &Sample, visit: &mut impl FnMut(FileCall)) {
    for line in 0..sample.lines.len() {
        for length in 0..sample.lines[line].len() {
            let mut cut = sample.clone();
            cut.lines[line].truncate(length);
            visit(cut.call());
        }
        for byte in HITS {
            let mut longer = sample.clone();
            longer.lines[line].push(byte);
            visit(longer.call());
        }
    }
    let whole = sample.call();
    for length in 0..=whole.bytes.len() {
        let mut cut = whole.clone();
        cut.bytes.truncate(length);
        visit(cut);
    }
}

/// Every line lost and doubled, every two swapped, every byte lost.
pub fn moved(sample: &Sample, visit: &mut impl FnMut(FileCall)) {
    let count = sample.lines.len();
    for line in 0..count {
        let mut lost = sample.clone();
        lost.lines.remove(line);
        visit(lost.call());
        let mut doubled = sample.clone();
        doubled.lines.insert(line, sample.lines[line].clone());
        visit(doubled.call());
        for second in line + 1..count {
            let mut swapped = sample.clone();
            swapped.lines.swap(line, second);
            visit(swapped.call());
        }
        for column in 0..sample.lines[line].len() {
            let mut lost = sample.clone();
            lost.lines[line].remove(column);
            visit(lost.call());
        }
    }
}

/// Each of some lines put in at every place.
pub fn put_in(sample: &Sample, visit: &mut impl FnMut(FileCall)) {
    let epoch = epoch_line(&Calendar::of(YEAR_2024), Filled::Blanks);
    let record = position_line(SATELLITE, FIRST, Filled::Blanks);
    let zeros = position_line(SATELLITE, [written(true, 0); 3], Filled::Blanks);
    let others: [&[u8]; 17] = [
        b"",
        b"\r",
        b"EOF",
        b"EOF\r",
        b"EOFEOF",
        b"EO",
        b"E",
        b"eof",
        b" EOF",
        b"*",
        b"P",
        b"PG0",
        b"PG05",
        b"PG06",
        b"\xff\xfe",
        b"/*",
        b"V",
    ];
    let lines = [
        epoch.as_slice(),
        &record,
        &zeros,
        &record[..45],
        &epoch[..30],
    ];
    for line in lines.into_iter().chain(others) {
        for place in 0..=sample.lines.len() {
            let mut longer = sample.clone();
            longer.lines.insert(place, line.to_vec());
            visit(longer.call());
        }
    }
}
