//! What can happen to a file: bytes, columns, fields and lines that are changed, lost, doubled, swapped or put in.

use super::Sample;
use super::well_formed;
use crate::description::HEADER;
use crate::inputs::random::Random;

/// The bytes that a column is hit with.
pub const HITS: [u8; 20] = *b"0159 -+.,AeP*\r\n\t\0\xff/:";

/// One sort of damage.
pub type Damage = fn(&mut Random, &mut Sample);

/// The fourteen sorts; the two that go for the lines that are looked at stand twice, so that each comes twice as often as another.
pub const KINDS: [Damage; 16] = [
    hit_looked_at,
    hit_looked_at,
    hit_header,
    hit_anywhere,
    change_field,
    change_field,
    cut_line,
    lengthen_line,
    lose_line,
    double_line,
    swap_lines,
    put_in_line,
    put_in_byte,
    lose_byte,
    other_time_system,
    other_satellite,
];

/// What is put into the columns of a year.
const YEARS: [&str; 10] = [
    "   0", "0000", "   1", "9999", "1900", "2000", "2096", "1843", " 20 ", "-100",
];

/// What is put into the columns of a month, a day, an hour or a minute.
const PAIRS: [&str; 16] = [
    " 0", "00", " 1", "01", "12", "13", "23", "24", "28", "29", "30", "31", "32", "59", "60", "1 ",
];

/// What is put into the columns of a second.
const SECONDS: [&str; 12] = [
    "59.99999999",
    "60.00000000",
    " 0.00000000",
    "00.00000001",
    "  .00000000",
    "-1.00000000",
    "+1.00000000",
    " 1.0000000 ",
    " 10000000.0",
    "61.00000000",
    "1e1.0000000",
    "  nan      ",
];

/// What is put into the columns of a coordinate. One is longer by a digit, as if a seventh decimal were written: these columns are right then, and the digit goes into the first column behind them.
const COORDINATES: [&str; 20] = [
    "      0.000000",
    "     -0.000000",
    "-000000.000000",
    "     +1.000000",
    "     - .000001",
    "    - 1.000000",
    "    --1.000000",
    "       .000001",
    "      -.000001",
    "      1.00000 ",
    "      1.0000000",
    "     1.0000000",
    "9999999.999999",
    "-999999.999999",
    "      0.000001",
    "     -0.000001",
    "      1 000001",
    "           inf",
    "      1.0e+003",
    "              ",
];

/// One byte of a line that is looked at.
fn hit_looked_at(random: &mut Random, sample: &mut Sample) {
    let places = sample.looked_at();
    if !places.is_empty() {
        let line = &mut sample.lines[random.pick(&places)];
        if !line.is_empty() {
            let column = random.below(line.len().min(50));
            line[column] = random.pick(&HITS);
        }
    }
}

/// One of the first two bytes of a line of the header.
fn hit_header(random: &mut Random, sample: &mut Sample) {
    let line = random.below(HEADER.len());
    let line = line.min(sample.lines.len() - 1);
    let column = random.below(2);
    if let Some(byte) = sample.lines[line].get_mut(column) {
        *byte = random.pick(&HITS);
    }
}

/// Any byte of any line gets any value.
fn hit_anywhere(random: &mut Random, sample: &mut Sample) {
    let line = random.below(sample.lines.len());
    let line = &mut sample.lines[line];
    if !line.is_empty() {
        let column = random.below(line.len());
        line[column] = random.bits() as u8;
    }
}

/// One field of a line that is looked at, to something that is often no number or no date.
fn change_field(random: &mut Random, sample: &mut Sample) {
    let places = sample.looked_at();
    if places.is_empty() {
        return;
    }
    let line = &mut sample.lines[random.pick(&places)];
    let (column, text) = if line.starts_with(b"*") {
        match random.below(6) {
            0 => (4, random.pick(&YEARS)),
            1 => (21, random.pick(&SECONDS)),
            k => ([9, 12, 15, 18][k - 2], random.pick(&PAIRS)),
        }
    } else {
        (5 + 14 * random.below(3), random.pick(&COORDINATES))
    };
    put(line, column, text.as_bytes());
}

/// Puts bytes into a line from a column on, as far as the line goes; the first column is 1.
pub fn put(line: &mut [u8], column: usize, text: &[u8]) {
    for (place, &byte) in line.iter_mut().skip(column - 1).zip(text) {
        *place = byte;
    }
}

/// A line is cut.
fn cut_line(random: &mut Random, sample: &mut Sample) {
    let line = random.below(sample.lines.len());
    let length = random.below(sample.lines[line].len() + 1);
    sample.lines[line].truncate(length);
}

/// A line has more at its end, or at its beginning.
fn lengthen_line(random: &mut Random, sample: &mut Sample) {
    let line = random.below(sample.lines.len());
    let more = random.pick(&[b" ".as_slice(), b"0", b"\r", b"\0", b"  *", b"EOF"]);
    let line = &mut sample.lines[line];
    *line = if random.one_in(2) {
        [line, more].concat()
    } else {
        [more, line].concat()
    };
}

/// A line is lost.
fn lose_line(random: &mut Random, sample: &mut Sample) {
    if sample.lines.len() > 1 {
        sample.lines.remove(random.below(sample.lines.len()));
    }
}

/// A line stands twice.
fn double_line(random: &mut Random, sample: &mut Sample) {
    let line = random.below(sample.lines.len());
    sample.lines.insert(line, sample.lines[line].clone());
}

/// Two lines change places.
fn swap_lines(random: &mut Random, sample: &mut Sample) {
    let count = sample.lines.len();
    let (first, any) = (random.below(count), random.below(count));
    let second = random.pick(&[(first + 1) % count, any]);
    sample.lines.swap(first, second);
}

/// A line is put in.
fn put_in_line(random: &mut Random, sample: &mut Sample) {
    let own = [b"P", sample.satellite.as_slice()].concat();
    let any: Vec<u8> = (0..random.below(60)).map(|_| random.bits() as u8).collect();
    let line = random.pick(&[
        b"".as_slice(),
        b"EOF",
        b"EOFX",
        b"EO",
        b"E",
        b"*",
        b"P",
        b"*  2024  1  1  0  0  0.00000000",
        b"*  2024  1  1  0  0  0.0000000",
        &own,
        &own[..3],
        &any,
    ]);
    let place = random.below(sample.lines.len() + 1);
    sample.lines.insert(place, line.to_vec());
}

/// A byte is put into a line.
fn put_in_byte(random: &mut Random, sample: &mut Sample) {
    let line = random.below(sample.lines.len());
    let line = &mut sample.lines[line];
    line.insert(random.below(line.len() + 1), random.pick(&HITS));
}

/// A byte of a line is lost.
fn lose_byte(random: &mut Random, sample: &mut Sample) {
    let line = random.below(sample.lines.len());
    let line = &mut sample.lines[line];
    if !line.is_empty() {
        line.remove(random.below(line.len()));
    }
}

/// Another time system, or one of its bytes changed.
fn other_time_system(random: &mut Random, sample: &mut Sample) {
    if let Some(line) = sample.lines.get_mut(12) {
        let system = random.pick(&[
            b"UTC", b"GPS", b"GLO", b"GAL", b"TAI", b"ccc", b"utc", b"   ",
        ]);
        put(line, 10, system);
        if random.one_in(3) {
            put(line, 10 + random.below(3), &[random.pick(&HITS)]);
        }
    }
}

/// The reader is asked for a satellite that may not be there, or for one that no line can name.
fn other_satellite(random: &mut Random, sample: &mut Sample) {
    let names = well_formed::satellites(random, 40);
    let name = random.pick(&names);
    sample.satellite = random.pick(&[name, name, name, *b"G\n1", *b"\nPG", *b"01\n", *b"\n\n\n"]);
}
