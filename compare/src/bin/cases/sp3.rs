//! The cases of the reader of orbit files; all are short.

use compare::description::HEADER;
use compare::description::calendar::{Calendar, SECOND, STEP};
use compare::files::FileCall;
use compare::inputs::integers::INSTANT_LIMIT;
use compare::inputs::random::Random;
use compare::inputs::sp3::damage::{self, put};
use compare::inputs::sp3::places::small;
use compare::inputs::sp3::well_formed::{self, Size};
use compare::inputs::sp3::{Filled, Sample, bare_header, dates, faults};

/// The longest file in bytes.
const LONGEST: usize = 600;

/// How many random files are drawn as they should be, and how many are damaged then.
const WELL_FORMED: usize = 16;
const DAMAGED: usize = 40;

/// The line of the first epoch of a small file, and of the satellite's first record.
const EPOCH: usize = HEADER.len();
const RECORD: usize = EPOCH + 1;

/// All cases.
pub fn cases() -> Vec<FileCall> {
    let mut random = Random::new(95);
    let mut list = whole();
    list.extend(numbers());
    list.extend(of_dates());
    list.extend(with_areas());
    list.extend(refusals());
    list.extend((0..WELL_FORMED).map(|_| drawn(&mut random, 0)));
    list.extend((0..DAMAGED).map(|_| drawn(&mut random, 1)));
    list
}

/// The small file that most cases are made from.
fn sound() -> Sample {
    small(*b"UTC", Filled::Blanks, b"", b"EOF")
}

/// The small file with a change.
fn with(change: impl FnOnce(&mut Sample)) -> FileCall {
    let mut sample = sound();
    change(&mut sample);
    sample.call()
}

/// Files as they should be: both time systems, both ends of lines, EOF or none, zeros before numbers, records out of order.
fn whole() -> Vec<FileCall> {
    let mut list = vec![
        sound().call(),
        small(*b"GPS", Filled::Blanks, b"", b"").call(),
        small(*b"GPS", Filled::Zeros, b" 123456.789012", b"EOF").call(),
        with(|sample| sample.end = b"\r\n"),
        with(|sample| sample.ended = false),
        with(|sample| sample.lines.swap(EPOCH, EPOCH + 4)),
        with(|sample| sample.lines[EPOCH + 4] = sample.lines[EPOCH].clone()),
        with(|sample| sample.lines.insert(EPOCH + 4, b"EOF".to_vec())),
        with(|sample| sample.lines.insert(EPOCH, b"/*".to_vec())),
        with(|sample| sample.lines.push(b"PG05".to_vec())),
        with(|sample| sample.lines[EPOCH + 3] = b"PG06 nothing".to_vec()),
        with(|sample| sample.lines[RECORD + 1] = b"PG0".to_vec()),
    ];
    for leap_seconds in [i16::MIN, -1, 0, i16::MAX] {
        list.push(
            Sample {
                leap_seconds,
                ..small(*b"GPS", Filled::Blanks, b"", b"")
            }
            .call(),
        );
    }
    list
}

/// Coordinates of every sort in a record, which is kept or not.
fn numbers() -> Vec<FileCall> {
    let fields: [&[u8]; 16] = [
        b"      0.000000",
        b"     -0.000000",
        b"      0.000001",
        b"     -0.000001",
        b"      1.000001",
        b"9999999.999999",
        b"-999999.999999",
        b"0000012.345678",
        b"     +1.000000",
        b"    - 1.000000",
        b"    --1.000000",
        b"       .000001",
        b"      -.000001",
        b"      1.00000 ",
        b"     1.0000000",
        b"           inf",
    ];
    let axes = [5, 19, 33].into_iter().cycle();
    let one = fields
        .into_iter()
        .zip(axes)
        .map(|(field, column)| with(|sample| put(&mut sample.lines[RECORD], column, field)));
    let mut list: Vec<FileCall> = one.collect();
    let zeros = b"      0.000000-000000.000000     -0.000000";
    list.push(with(|sample| put(&mut sample.lines[RECORD], 5, zeros)));
    list
}

/// Dates at both sides of being real, and instants at both sides of the limit.
fn of_dates() -> Vec<FileCall> {
    let fields: [(usize, &[u8]); 22] = [
        (4, b"0000"),
        (4, b"   1"),
        (4, b"9999"),
        (4, b"20 4"),
        (4, b"1900  2 29"),
        (4, b"2000  2 29"),
        (4, b"2023  2 29"),
        (4, b"2024  2 29"),
        (4, b"1969 12 31 23 59 59.99999999"),
        (9, b" 0"),
        (9, b"13"),
        (9, b" 4 31"),
        (12, b" 0"),
        (12, b"32"),
        (12, b"1 "),
        (15, b"24"),
        (18, b"60"),
        (21, b"59.99999999"),
        (21, b"60.00000000"),
        (21, b"  .00000000"),
        (21, b" 0,00000000"),
        (21, b"-1.00000000"),
    ];
    let change = |(column, field): (usize, &[u8])| {
        with(|sample| put(&mut sample.lines[EPOCH], column, field))
    };
    let mut list: Vec<FileCall> = fields.into_iter().map(change).collect();
    let limit = i128::from(INSTANT_LIMIT);
    for leap_seconds in [i16::MIN, 18, i16::MAX] {
        let leap = i128::from(leap_seconds) * SECOND;
        for instant in [limit, limit + STEP, -limit, -limit - STEP] {
            let date = Calendar::of(instant + leap);
            list.push(dates::at(&date, *b"GPS", leap_seconds).call());
        }
    }
    list.push(dates::at(&Calendar::of(limit + STEP), *b"UTC", 1).call());
    list.push(dates::at(&Calendar::of(limit + STEP), *b"GAL", 1).call());
    list
}

/// Areas that are too short, just long enough and longer.
fn with_areas() -> Vec<FileCall> {
    let call = faults::of_records(2).call();
    let lengths = [
        [0, 0],
        [1, 6],
        [2, 5],
        [2, 3],
        [2, 6],
        [3, 6],
        [2, 7],
        [5, 9],
        [0, 6],
        [2, 0],
    ];
    let with = |areas| FileCall {
        areas,
        ..call.clone()
    };
    lengths.map(with).into()
}

/// What is refused: each line of the header, each other way of 11, 12 and 13, and several at once.
fn refusals() -> Vec<FileCall> {
    let mut list = Vec::new();
    for line in 0..HEADER.len() {
        list.push(with(|sample| sample.lines[line][1] ^= 1));
    }
    let header = |lines: Vec<Vec<u8>>| Sample { lines, ..sound() }.call();
    list.extend([
        header(Vec::new()),
        header(bare_header(*b"UTC")),
        header(bare_header(*b"UTC")[..21].to_vec()),
        with(|sample| sample.lines[12].truncate(11)),
        with(|sample| sample.lines.swap(EPOCH, RECORD)),
        with(|sample| sample.lines[RECORD].truncate(45)),
        with(|sample| sample.lines[EPOCH].truncate(30)),
        with(|sample| sample.lines[EPOCH].truncate(1)),
        with(|sample| put(&mut sample.lines[12], 10, b"GLO")),
        with(|sample| put(&mut sample.lines[12], 10, b"utc")),
        with(|sample| sample.satellite = *b"G07"),
        with(|sample| sample.satellite = *b"G5\n"),
        with(|sample| sample.lines[EPOCH] = b"EOF".to_vec()),
    ]);
    let short = |call: FileCall| FileCall {
        areas: [1, 1],
        ..call
    };
    list.extend([
        short(with(|sample| put(&mut sample.lines[12], 10, b"TAI"))),
        short(with(|sample| put(&mut sample.lines[RECORD], 18, b" "))),
        short(with(|sample| {
            put(&mut sample.lines[12], 10, b"TAI");
            put(&mut sample.lines[EPOCH], 12, b"00");
        })),
    ]);
    list
}

/// A short random file, with so many damages.
fn drawn(random: &mut Random, damages: usize) -> FileCall {
    loop {
        let size = Size {
            satellites: 1 + random.below(2),
            epochs: 1 + random.below(3),
        };
        let mut sample = well_formed::draw(random, size);
        let body = sample.lines.split_off(HEADER.len());
        sample.lines = bare_header(random.pick(&[*b"UTC", *b"GPS"]));
        sample.lines.extend(body);
        for _ in 0..damages {
            random.pick(&damage::KINDS)(random, &mut sample);
        }
        let call = sample.drawn_call(random);
        if call.bytes.len() <= LONGEST {
            return call;
        }
    }
}
