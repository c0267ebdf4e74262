//! Files that are by the description, of every sort.

use super::{
    Coordinate, Filled, Sample, bare_header, coordinate, epoch_line, full_header, position_line,
};
use crate::description::calendar::{Calendar, SECOND, STEP};
use crate::inputs::integers::INSTANT_LIMIT;
use crate::inputs::random::Random;

/// An instant of our days, in nanoseconds since 1970.
const PRESENT: i128 = 1_750_000_000 * SECOND;

/// How large a file is.
#[derive(Clone, Copy)]
pub struct Size {
    pub satellites: usize,
    pub epochs: usize,
}

/// A size of a few lines mostly.
pub fn size(random: &mut Random) -> Size {
    let (satellites, epochs) = match random.below(100) {
        0 => (85, 12),
        1 => (1, 300),
        2..10 => (12, 12),
        _ => (4, 6),
    };
    Size {
        satellites: 1 + random.below(satellites),
        epochs: 1 + random.below(epochs),
    }
}

/// What all lines of a file have in common.
struct Style {
    filled: Option<Filled>,
    /// What stands behind the coordinates.
    tail: &'static str,
    /// One line of another sort comes after one in so many.
    others: usize,
    /// One P line in so many is missing, and one in so many has a zero.
    missing: usize,
    zeros: usize,
}

/// Draws the style of a file.
fn style(random: &mut Random) -> Style {
    Style {
        filled: random.pick(&[Some(Filled::Blanks), Some(Filled::Zeros), None]),
        tail: random.pick(&[
            "",
            "    123.456789",
            " 999999.999999",
            "    -12.345678 18 18 18 219 EP  MP",
            "x",
        ]),
        others: random.pick(&[2, 5, 1000]),
        missing: random.pick(&[2, 10, 1000]),
        zeros: random.pick(&[3, 20, 1000]),
    }
}

impl Style {
    /// How the next number is filled.
    fn filled(&self, random: &mut Random) -> Filled {
        let any = random.pick(&[Filled::Blanks, Filled::Zeros]);
        self.filled.unwrap_or(any)
    }
}

/// A file of this size.
pub fn draw(random: &mut Random, size: Size) -> Sample {
    let satellites = satellites(random, size.satellites);
    let style = style(random);
    let leap_seconds = leap_seconds(random);
    let time_system = *random.pick(&[b"UTC", b"GPS"]);
    let lessened = if &time_system == b"GPS" {
        leap_seconds
    } else {
        0
    };
    let mut lines = match random.below(3) {
        0 => bare_header(time_system),
        _ => full_header(time_system, &satellites, size.epochs, 'P'),
    };
    if random.one_in(4) {
        let comments = 1 + random.below(3);
        lines.extend(vec![b"/* more comment".to_vec(); comments]);
    }
    for instant in instants(random, size.epochs, lessened) {
        let filled = style.filled(random);
        lines.push(epoch_line(&Calendar::of(instant), filled));
        for &satellite in &satellites {
            add_records(random, &mut lines, satellite, &style);
        }
    }
    end(random, &mut lines);
    Sample {
        lines,
        end: random.pick(&[b"\n", b"\n", b"\r\n"]),
        ended: !random.one_in(4),
        satellite: random.pick(&satellites),
        leap_seconds,
    }
}

/// The names of so many satellites: mostly a letter and a number, now and then any bytes.
pub fn satellites(random: &mut Random, count: usize) -> Vec<[u8; 3]> {
    let strange = random.one_in(8);
    let name = |k: usize| {
        let letter = b"GRECJLIS"[k % 8];
        let number = k / 8 + 1;
        [
            letter,
            b'0' + (number / 10) as u8,
            b'0' + (number % 10) as u8,
        ]
    };
    let mut names: Vec<[u8; 3]> = (0..count).map(name).collect();
    if strange {
        let k = random.below(count);
        names[k] = strange_name(random);
    }
    names
}

/// Any three bytes but a line feed, which would be none of a name's.
fn strange_name(random: &mut Random) -> [u8; 3] {
    let any = [(); 3].map(|()| match random.bits() as u8 {
        b'\n' => b'\r',
        byte => byte,
    });
    random.pick(&[
        *b"  1",
        *b"   ",
        *b"G 1",
        *b"OF\r",
        *b"\0\0\0",
        *b"***",
        *b"PPP",
        *b"-0.",
        [255, 254, 0],
        [0xc3, 0xa9, b'1'],
        any,
        any,
    ])
}

/// Leap seconds: those of our days, none, a few, the ends.
pub fn leap_seconds(random: &mut Random) -> i16 {
    let any = random.bits() as i16;
    random.pick(&[18, 18, 18, 0, 1, -1, 37, i16::MAX, i16::MIN, any, any])
}

/// The epochs' instants before they are lessened: rising, equal, falling or in any order, all within the limit.
fn instants(random: &mut Random, count: usize, lessened: i16) -> Vec<i128> {
    let limit = i128::from(INSTANT_LIMIT);
    let any = i128::from(random.count(-INSTANT_LIMIT, INSTANT_LIMIT));
    let start = random.pick(&[PRESENT, PRESENT, PRESENT, any, any, 0, limit, -limit]);
    let gap = random.pick(&[
        900 * SECOND,
        900 * SECOND,
        30 * SECOND,
        86_400 * SECOND,
        STEP,
        0,
    ]);
    let gap = gap + random.below(2) as i128 * i128::from(random.count(0, 1_000_000_000));
    let direction = random.pick(&[1, 1, 1, -1]);
    let mut list = Vec::new();
    for k in 0..count as i128 {
        let gap = if random.one_in(30) { 0 } else { gap };
        let instant = (start + direction * k * gap).clamp(-limit, limit);
        let step = (instant / STEP) * STEP;
        list.push(step + i128::from(lessened) * SECOND);
    }
    list
}

/// The records of one satellite at one epoch, and lines of other sorts among them.
fn add_records(random: &mut Random, lines: &mut Vec<Vec<u8>>, satellite: [u8; 3], style: &Style) {
    if !random.one_in(style.missing) {
        let filled = style.filled(random);
        let position = position(random, style.zeros);
        let mut line = position_line(satellite, position, filled);
        line.extend(style.tail.as_bytes());
        lines.push(line);
    }
    if random.one_in(style.others) {
        lines.push(other_line(random, satellite));
    }
}

/// A position: ordinary ones, short and long ones, zeros of either sign.
fn position(random: &mut Random, zeros: usize) -> [Coordinate; 3] {
    let absent = random.one_in(zeros);
    [(); 3].map(|()| {
        if absent {
            return Coordinate {
                minus: random.one_in(2),
                size: 0,
            };
        }
        drawn_coordinate(random)
    })
}

/// A coordinate of any length.
pub fn drawn_coordinate(random: &mut Random) -> Coordinate {
    let minus = random.one_in(2);
    let most = if minus {
        999_999_999_999
    } else {
        9_999_999_999_999
    };
    let any = random.count(0, most) as u64;
    let size = match random.below(12) {
        0 => random.pick(&[0, 1, 9, 999_999, 1_000_000, most as u64]),
        1 => any >> random.below(44),
        2 => any,
        _ => random.count(1_000_000_000, 45_000_000_000) as u64,
    };
    Coordinate { minus, size }
}

/// A line that is passed over.
fn other_line(random: &mut Random, satellite: [u8; 3]) -> Vec<u8> {
    let written = drawn_coordinate(random);
    let number = coordinate(written, Filled::Blanks);
    let own = |letter: &str| [letter.as_bytes(), &satellite].concat();
    match random.below(10) {
        0 | 1 => [own("V"), number.repeat(4).into_bytes()].concat(),
        2 => b"EP   55   55   55     222  1234567 -1234567  5999999      -30       21 -1230000"
            .to_vec(),
        3 => b"EV   22   22   22     111  1234567  1234567  1234567  1234567  1234567  1234567"
            .to_vec(),
        4 => b"/* comment among the records".to_vec(),
        5 => Vec::new(),
        6 => own("p"),
        8 if random.one_in(10) => vec![b'x'; random.below(3000)],
        7 => [b" ".to_vec(), own("P"), number.repeat(3).into_bytes()].concat(),
        _ => random
            .pick(&[b"P".as_slice(), b"PG", b"EO", b"E", b" EOF", b"eof"])
            .to_vec(),
    }
}

/// The end of a file: EOF mostly, and then perhaps more lines, which no reader sees.
fn end(random: &mut Random, lines: &mut Vec<Vec<u8>>) {
    let kind = random.below(8);
    match kind {
        0 | 1 => {}
        2 => lines.push(b"EOF and more".to_vec()),
        _ => lines.push(b"EOF".to_vec()),
    }
    if kind == 2 || kind == 3 {
        lines.push(b"*  nothing".to_vec());
        let again = random.below(lines.len());
        lines.push(lines[again].clone());
        lines.push(random.bits().to_le_bytes().to_vec());
    }
}
