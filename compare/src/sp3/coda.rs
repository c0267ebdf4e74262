//! Well-formed files through `codadump`, of Debian's package coda: a reader of SP3 that neither side has anything of.

use super::folder;
use super::rust::{Kept, name, or_none, ours_of};
use super::size;
use crate::driver::shown;
use crate::tally::{Tally, Total};
use compare::description::calendar::{Calendar, SECOND, STEP};
use compare::inputs::random::Random;
use compare::inputs::sp3::well_formed::{Size, drawn_coordinate};
use compare::inputs::sp3::{
    Coordinate, Filled, Sample, coordinate, epoch_line, full_header, position_line,
};
use std::path::Path;
use std::process::Command;

/// How many files.
const FILES: usize = 400;

/// It holds an epoch as a double of seconds and prints it to the microsecond: so near must it be, in nanoseconds.
const NEAR: i128 = 2_000;

/// A record of one satellite: the nanoseconds since 1970 of its calendar, and its millimetres.
type Record = (i128, [i64; 3]);

/// Compares the epochs and coordinates of one satellite of each file.
pub fn compare(total: &mut Total) {
    let mut tally = Tally::new("read_sp3 and codadump");
    if Command::new("codadump").arg("--version").output().is_err() {
        println!(
            "read_sp3 and codadump: codadump is not installed (apt-get install coda); {FILES} files not compared"
        );
        return;
    }
    let mut random = Random::new(120);
    let sizes = [size(1, 20), size(3, 8), size(32, 3), size(85, 2)];
    for k in 0..FILES {
        let sample = taken(&mut random, sizes[k % sizes.len()]);
        let path = folder::write(&format!("{k:03}.sp3"), &sample.bytes());
        let coda = dumped(&path).map(|text| records(&text, sample.satellite));
        let ours = or_none(ours_of(&sample));
        let lessened = if sample.lines[12][9..12] == *b"GPS" {
            sample.leap_seconds
        } else {
            0
        };
        let both = ours.as_ref().ok().zip(coda.as_ref().ok());
        let equal = both.is_some_and(|(ours, coda)| agree(ours, coda, lessened));
        tally.record(equal, || {
            let words = shown(&sample.call().arguments());
            format!(
                "{words}, {}:\n  ours {ours:?}\n  coda {coda:?}",
                path.display()
            )
        });
        tally.note(match ours {
            Ok(records) if records.is_empty() => "without a record",
            Ok(_) => "with records",
            Err(_) => "refused",
        });
    }
    tally.finish(total);
}

/// What codadump prints, or how it fails.
fn dumped(path: &Path) -> Result<String, String> {
    let output = Command::new("codadump").arg("json").arg(path).output();
    let output = output.map_err(|error| error.to_string())?;
    if !output.status.success() {
        return Err(String::from_utf8_lossy(&output.stderr).into_owned());
    }
    String::from_utf8(output.stdout).map_err(|error| error.to_string())
}

/// The records of a satellite in what codadump prints, without those of three zeros.
fn records(text: &str, satellite: [u8; 3]) -> Vec<Record> {
    let satellite = str::from_utf8(&satellite).expect("a name of letters");
    let own = format!("\"vehicle_id\":\"{satellite}\",\"x_coordinate\":");
    let mut list = Vec::new();
    for epoch in text.split("\"epoch\":\"").skip(1) {
        let instant = calendar(epoch).nanoseconds();
        for record in epoch.split(&own).skip(1) {
            let mut fields = record.split(',').map(millimetres);
            let position = [(); 3].map(|()| fields.next().expect("three coordinates"));
            if position != [0; 3] {
                list.push((instant, position));
            }
        }
    }
    list
}

/// The calendar of an epoch, `2024-01-01T00:15:00.000000`.
fn calendar(text: &str) -> Calendar {
    let number = |from: usize, to: usize| text[from..to].parse::<i64>().expect("digits");
    Calendar {
        year: number(0, 4),
        month: number(5, 7),
        day: number(8, 10),
        hour: number(11, 13),
        minute: number(14, 16),
        second: number(17, 19) * 100_000_000 + number(20, 26) * 100,
    }
}

/// The last number of a field in kilometres, to the nearest millimetre: its last decimal.
fn millimetres(field: &str) -> i64 {
    let number = field.rsplit(':').next().expect("a field has a number");
    let kilometres: f64 = number.parse().expect("a number");
    (kilometres * 1e6).round() as i64
}

/// Whether both have the same records.
fn agree(ours: &[Kept], coda: &[Record], lessened: i16) -> bool {
    let same = |((instant, metres), (calendar, millimetres)): (&Kept, &Record)| {
        let written = instant + i128::from(lessened) * SECOND;
        let near = (written - calendar).abs() <= NEAR;
        near && metres.map(|x| (x * 1e3).round() as i64) == *millimetres
    };
    ours.len() == coda.len() && ours.iter().zip(coda).all(same)
}

/// A file of a sort that codadump takes: all columns of the header, clocks, EOF; velocities only where the header says so.
fn taken(random: &mut Random, size: Size) -> Sample {
    let satellites: Vec<[u8; 3]> = (0..size.satellites).map(name).collect();
    let kind = random.pick(&['P', 'P', 'V']);
    let mut lines = full_header(
        *random.pick(&[b"UTC", b"GPS"]),
        &satellites,
        size.epochs,
        kind,
    );
    let mut instant = i128::from(random.count(-3_900_000_000, 3_900_000_000)) * SECOND;
    for _ in 0..size.epochs {
        lines.push(epoch_line(&Calendar::of(instant), Filled::Blanks));
        for &satellite in &satellites {
            if !random.one_in(10) {
                add_record(random, &mut lines, satellite, kind);
            }
        }
        let any = i128::from(random.count(-90_000_000_000, 90_000_000_000)) * STEP;
        instant += random.pick(&[900 * SECOND, 900 * SECOND, 30 * SECOND, 0, any]);
    }
    lines.push(b"EOF".to_vec());
    if random.one_in(4) {
        lines.push(b"text behind the end".to_vec());
    }
    Sample {
        lines,
        end: random.pick(&[b"\n", b"\n", b"\r\n"]),
        ended: !random.one_in(4),
        satellite: random.pick(&satellites),
        leap_seconds: random.whole(-40, 40) as i16,
    }
}

/// A P line with a clock, and what may follow it.
fn add_record(random: &mut Random, lines: &mut Vec<Vec<u8>>, satellite: [u8; 3], kind: char) {
    let absent = random.one_in(8);
    let position = [(); 3].map(|()| match absent {
        true => Coordinate {
            minus: random.one_in(2),
            size: 0,
        },
        false => drawn_coordinate(random),
    });
    let filled = random.pick(&[Filled::Blanks, Filled::Blanks, Filled::Zeros]);
    let mut line = position_line(satellite, position, filled);
    line.extend(
        random
            .pick(&[
                " 999999.999999",
                "    -12.345678",
                "     12.345678 18 18 18 219 EP  MP",
            ])
            .bytes(),
    );
    lines.push(line);
    if random.one_in(3) {
        lines.push(
            b"EP   55   55   55     222  1234567 -1234567  5999999      -30       21 -1230000"
                .to_vec(),
        );
    }
    if kind == 'V' {
        let speed = Coordinate {
            minus: random.one_in(2),
            size: random.below(90_000_000_000) as u64,
        };
        let speeds = coordinate(speed, Filled::Blanks).repeat(4);
        lines.push([b"V", satellite.as_slice(), speeds.as_bytes()].concat());
    }
}
