//! The reader of SP3-c files once more, plainly, by the description: a list of lines, and of each line its columns.
//!
//! It is what our reader is compared with. No line of it is the Rust's or our library's, and it goes another way than either.

pub mod calendar;
mod columns;

use crate::answers::{Answer, both_areas, marked_frequencies, marked_instants};
use crate::files::FileCall;
use crate::inputs::integers::INSTANT_LIMIT;
use crate::words::Word;
use calendar::Calendar;

/// The refusal of what is not by the description.
pub const NOT_BY_THE_DESCRIPTION: u8 = 11;

/// The refusal of a time system other than UTC and GPS.
pub const OTHER_TIME_SYSTEM: u8 = 12;

/// The refusal where no record is kept, or an area is too short for them.
pub const NO_RECORD_OR_NO_ROOM: u8 = 13;

/// What the header's lines begin with.
pub const HEADER: [&[u8; 2]; 22] = [
    b"#c", b"##", b"+ ", b"+ ", b"+ ", b"+ ", b"+ ", b"++", b"++", b"++", b"++", b"++", b"%c",
    b"%c", b"%f", b"%f", b"%i", b"%i", b"/*", b"/*", b"/*", b"/*",
];

/// One P record that is kept.
#[derive(Clone, Copy, PartialEq)]
pub struct Record {
    /// Nanoseconds since 1970.
    pub instant: i64,
    /// Metres.
    pub position: [f64; 3],
}

/// The lines of a file; bytes behind the last line feed are a line, if there are any.
pub fn lines(bytes: &[u8]) -> Vec<&[u8]> {
    let mut lines: Vec<&[u8]> = bytes.split(|&byte| byte == b'\n').collect();
    if lines.last().is_some_and(|line| line.is_empty()) {
        lines.pop();
    }
    lines
}

/// The records of a satellite in the file's order, or the refusal; 13 is here only that there is none.
pub fn read(bytes: &[u8], satellite: [u8; 3], leap_seconds: i16) -> Result<Vec<Record>, u8> {
    let looked_at = look_at(&lines(bytes), satellite, leap_seconds);
    let (time_system, records) = looked_at.ok_or(NOT_BY_THE_DESCRIPTION)?;
    if lessened_by(time_system, leap_seconds).is_none() {
        return Err(OTHER_TIME_SYSTEM);
    }
    if records.is_empty() {
        return Err(NO_RECORD_OR_NO_ROOM);
    }
    Ok(records)
}

/// The answer to a call, and what both areas hold afterwards.
pub fn answer(call: &FileCall) -> Answer {
    let mut records = read(&call.bytes, call.satellite, call.leap_seconds);
    if let Ok(kept) = &records
        && (call.areas[0] < kept.len() || call.areas[1] < 3 * kept.len())
    {
        records = Err(NO_RECORD_OR_NO_ROOM);
    }
    let mut instants = marked_instants(call.areas[0]);
    let mut positions = marked_frequencies(call.areas[1]);
    let answer = match records {
        Err(number) => Answer::refused(number),
        Ok(records) => {
            for (k, record) in records.iter().enumerate() {
                instants[k] = record.instant;
                positions[3 * k..3 * k + 3].copy_from_slice(&record.position);
            }
            Answer::answered(vec![Word::Whole(records.len() as i64)])
        }
    };
    answer.beside(both_areas(&instants, &positions))
}

/// By how many seconds the instants of a time system are lessened; none for one that is not taken.
fn lessened_by(time_system: [u8; 3], leap_seconds: i16) -> Option<i16> {
    match &time_system {
        b"UTC" => Some(0),
        b"GPS" => Some(leap_seconds),
        _ => None,
    }
}

/// The time system and the records, or nothing where a line that is looked at is not by the description.
fn look_at(
    lines: &[&[u8]],
    satellite: [u8; 3],
    leap_seconds: i16,
) -> Option<([u8; 3], Vec<Record>)> {
    let time_system = time_system(lines)?;
    let lessened = lessened_by(time_system, leap_seconds);
    let of_satellite = [b"P", satellite.as_slice()].concat();
    let mut records = Vec::new();
    let mut epoch = None;
    for line in &lines[HEADER.len()..] {
        if line.starts_with(b"EOF") {
            break;
        } else if line.starts_with(b"*") {
            epoch = Some(instant(&columns::calendar(line)?, lessened)?);
        } else if line.starts_with(&of_satellite) {
            let (instant, position) = (epoch?, columns::position(line)?);
            if position != [0.0; 3] {
                records.push(Record { instant, position });
            }
        }
    }
    Some((time_system, records))
}

/// The time system, or nothing where a line of the header does not begin as it must or is missing.
fn time_system(lines: &[&[u8]]) -> Option<[u8; 3]> {
    let header = lines.get(..HEADER.len())?;
    let all_begin = header
        .iter()
        .zip(HEADER)
        .all(|(line, two)| line.starts_with(two));
    let system = header[12].get(9..12)?;
    all_begin.then(|| system.try_into().expect("three bytes"))
}

/// The instant of a real date within the limit; 0 where none is worked out.
fn instant(calendar: &Calendar, lessened_by: Option<i16>) -> Option<i64> {
    if !calendar.is_real() {
        return None;
    }
    let Some(seconds) = lessened_by else {
        return Some(0);
    };
    let instant = calendar.nanoseconds() - i128::from(seconds) * calendar::SECOND;
    let limit = i128::from(INSTANT_LIMIT);
    (-limit..=limit)
        .contains(&instant)
        .then_some(instant as i64)
}
