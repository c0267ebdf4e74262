//! SP3-c files: the lines that they are made of, and a file as a list of lines.

pub mod damage;
pub mod dates;
pub mod faults;
pub mod places;
pub mod well_formed;

use super::random::Random;
use crate::description::HEADER;
use crate::description::calendar::Calendar;
use crate::files::FileCall;

/// A file with the satellite and the leap seconds that its reader is given.
#[derive(Clone)]
pub struct Sample {
    pub lines: Vec<Vec<u8>>,
    /// What ends each line.
    pub end: &'static [u8],
    /// Whether the last line is ended too.
    pub ended: bool,
    pub satellite: [u8; 3],
    pub leap_seconds: i16,
}

impl Sample {
    /// The file.
    pub fn bytes(&self) -> Vec<u8> {
        let mut bytes = self.lines.join(self.end);
        if self.ended {
            bytes.extend(self.end);
        }
        bytes
    }

    /// The call with areas of just the records' lengths.
    pub fn call(&self) -> FileCall {
        self.call_with([0, 0])
    }

    /// The call with areas that are longer by so much.
    pub fn call_with(&self, more: [usize; 2]) -> FileCall {
        FileCall::with_room(self.bytes(), self.satellite, self.leap_seconds, more)
    }

    /// The call with areas that are often longer, and now and then too short.
    pub fn drawn_call(&self, random: &mut Random) -> FileCall {
        let mut call = self.call_with([random.below(4), random.below(7)]);
        if random.one_in(40) {
            let area = random.below(2);
            call.areas[area] = random.below(call.areas[area] + 1);
        }
        call
    }

    /// The lines behind the header that the reader looks at: epochs, and the satellite's P lines.
    pub fn looked_at(&self) -> Vec<usize> {
        let own = [b"P", self.satellite.as_slice()].concat();
        let body = HEADER.len()..self.lines.len();
        body.filter(|&k| self.lines[k].starts_with(b"*") || self.lines[k].starts_with(&own))
            .collect()
    }
}

/// A coordinate as it is written.
#[derive(Clone, Copy)]
pub struct Coordinate {
    pub minus: bool,
    /// Millionths of a kilometre: below 10^13, or with a minus below 10^12.
    pub size: u64,
}

/// How the places before a number are filled.
#[derive(Clone, Copy, PartialEq)]
pub enum Filled {
    Blanks,
    Zeros,
}

/// A number to the right of its columns.
fn right(digits: String, width: usize, filled: Filled) -> String {
    match filled {
        Filled::Blanks => format!("{digits:>width$}"),
        Filled::Zeros => format!("{digits:0>width$}"),
    }
}

/// An epoch line of 31 columns.
pub fn epoch_line(at: &Calendar, filled: Filled) -> Vec<u8> {
    let number = |n: i64, width| right(n.to_string(), width, filled);
    let (seconds, decimals) = (at.second / 100_000_000, at.second % 100_000_000);
    let line = format!(
        "*  {} {} {} {} {} {}.{decimals:08}",
        number(at.year, 4),
        number(at.month, 2),
        number(at.day, 2),
        number(at.hour, 2),
        number(at.minute, 2),
        number(seconds, 2),
    );
    line.into_bytes()
}

/// The 14 columns of a coordinate.
pub fn coordinate(written: Coordinate, filled: Filled) -> String {
    let kilometres = (written.size / 1_000_000).to_string();
    let decimals = written.size % 1_000_000;
    let before = match (written.minus, filled) {
        (false, _) => right(kilometres, 7, filled),
        (true, Filled::Zeros) => format!("-{}", right(kilometres, 6, filled)),
        (true, Filled::Blanks) => right(format!("-{kilometres}"), 7, filled),
    };
    format!("{before}.{decimals:06}")
}

/// A P line of 46 columns.
pub fn position_line(satellite: [u8; 3], position: [Coordinate; 3], filled: Filled) -> Vec<u8> {
    let coordinates: String = position.map(|written| coordinate(written, filled)).concat();
    [b"P", satellite.as_slice(), coordinates.as_bytes()].concat()
}

/// A header of the fewest bytes.
pub fn bare_header(time_system: [u8; 3]) -> Vec<Vec<u8>> {
    let mut lines: Vec<Vec<u8>> = HEADER.iter().map(|two| two.to_vec()).collect();
    lines[12].extend(b" M  cc ");
    lines[12].extend(time_system);
    lines
}

/// A header by the description in all its columns.
pub fn full_header(
    time_system: [u8; 3],
    satellites: &[[u8; 3]],
    epochs: usize,
    kind: char,
) -> Vec<Vec<u8>> {
    let mut lines = vec![
        format!("#c{kind}2024  1  1  0  0  0.00000000 {epochs:7} ORBIT IGS14 HLM  IGS"),
        "## 2295  86400.00000000   900.00000000 60310 0.0000000000000".to_string(),
    ];
    let mut lines: Vec<Vec<u8>> = lines.drain(..).map(String::into_bytes).collect();
    lines.extend((0..5).map(|row| names(satellites, row)));
    lines.extend([(); 5].map(|()| format!("++       {}", "  0".repeat(17)).into_bytes()));
    let system = [b"%c M  cc ".as_slice(), &time_system].concat();
    lines.push(
        [
            &system,
            b" ccc cccc cccc cccc cccc ccccc ccccc ccccc ccccc".as_slice(),
        ]
        .concat(),
    );
    let rest = [
        "%c cc cc ccc ccc cccc cccc cccc cccc ccccc ccccc ccccc ccccc",
        "%f  1.2500000  1.025000000  0.00000000000  0.000000000000000",
        "%f  0.0000000  0.000000000  0.00000000000  0.000000000000000",
        "%i    0    0    0    0      0      0      0      0         0",
        "%i    0    0    0    0      0      0      0      0         0",
    ];
    lines.extend(rest.map(|line| line.as_bytes().to_vec()));
    lines.extend(
        [(); 4].map(|()| b"/* a line of comment, as many as the header must have".to_vec()),
    );
    lines
}

/// One of the five lines that name the satellites, seventeen each.
fn names(satellites: &[[u8; 3]], row: usize) -> Vec<u8> {
    let mut line = match row {
        0 => format!("+   {:2}   ", satellites.len()),
        _ => "+        ".to_string(),
    }
    .into_bytes();
    for k in 17 * row..17 * row + 17 {
        line.extend(satellites.get(k).unwrap_or(b"  0"));
    }
    line
}
