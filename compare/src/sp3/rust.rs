//! The records that the Rust's own reader keeps, on files on which its rules and the description's are the same.

use super::{ours, size, tell};
use crate::tally::{Tally, Total};
use compare::answers::Answer;
use compare::description::calendar::{Calendar, SECOND, STEP};
use compare::description::{self, NO_RECORD_OR_NO_ROOM};
use compare::inputs::random::Random;
use compare::inputs::sp3::well_formed::Size;
use compare::inputs::sp3::{Coordinate, Filled, Sample, epoch_line, full_header, position_line};
use compare::reference;

/// How many files.
const FILES: usize = 6_000;

/// 1 January 2000, in nanoseconds since 1970.
const YEAR_2000: i128 = 946_684_800 * SECOND;

/// Compares the records of both sides, and every word of ours with that by the description; counts the coordinates that the Rust's second rounding changes.
pub fn compare(total: &mut Total) {
    let mut tally = Tally::new("read_sp3 and parse_sp3_file, records kept");
    let mut random = Random::new(110);
    let (mut coordinates, mut rounded_twice) = (0, 0);
    let sizes = [size(1, 40), size(3, 12), size(32, 6), size(85, 2)];
    for k in 0..FILES {
        let mut sample = published(&mut random, sizes[k % sizes.len()]);
        vary(&mut random, &mut sample);
        let call = sample.call();
        let (answer, expected) = (ours::records(&call), description::answer(&call));
        let (ours, rust) = (or_none(kept(&answer)), rust_of(&sample));
        let both = ours.as_ref().ok().zip(rust.as_ref());
        let equal = answer == expected && both.is_some_and(|(ours, rust)| agree(ours, rust));
        tally.record(equal, || {
            let words = tell(&call, &answer, &expected);
            format!("{words}\n  ours {ours:?}\n  Rust {rust:?}")
        });
        let (true, Some((ours, rust))) = (equal, both) else {
            continue;
        };
        if ours.is_empty() {
            tally.note("without a record");
        }
        let ours = ours.iter().flat_map(|record| record.1);
        let rust = rust.iter().flat_map(|record| record.1);
        coordinates += ours.clone().count();
        rounded_twice += ours.zip(rust).filter(|(ours, rust)| ours != rust).count();
    }
    tally.finish(total);
    println!(
        "  of {coordinates} coordinates the Rust's second rounding makes {rounded_twice} the double beside ours"
    );
}

/// Whether both have records at the same instants, and each coordinate of the Rust's is ours or the double beside it.
fn agree(ours: &[Kept], rust: &[Kept]) -> bool {
    let same = |(ours, rust): (&Kept, &Kept)| {
        ours.0 == rust.0 && ours.1.iter().zip(rust.1).all(|(&a, b)| beside(a, b))
    };
    ours.len() == rust.len() && ours.iter().zip(rust).all(same)
}

/// Whether two doubles are the same or neighbours, of one sign: no more can rounding twice change.
///
/// Ours is the double nearest to 1000 d, d being the decimal in kilometres. The Rust takes the double nearest to d, 1000 times it, and the double nearest to that.
///
/// Let u be the distance of doubles about d. The first rounding errs by u / 2 at most, so the product is off by 500 u at most. About 1000 d the doubles are 512 u or 1024 u apart: the product is off by less than 0.98 of their distance. Its rounding and ours each err by half of it at most. Thus the two are less than 1.98 distances apart, and as they are a whole number of them apart, at most one.
///
/// If a power of two lies between 1000 d and the product, the distance below it is 512 u and above it 1024 u: whichever is above is nearer to the power than half the distance there and becomes it, and the other is nearer to it than one distance there and becomes it or the double before it.
fn beside(a: f64, b: f64) -> bool {
    a.to_bits().abs_diff(b.to_bits()) <= 1
}

/// Records are lost, velocities and comments put in, lines ended otherwise: both rules still agree.
fn vary(random: &mut Random, sample: &mut Sample) {
    let lost = random.pick(&[2, 10, 1000]);
    let other = random.pick(&[2, 10, 1000]);
    let mut lines = Vec::new();
    for line in sample.lines.drain(..) {
        let is_record = line.starts_with(b"P");
        if is_record && random.one_in(other) {
            let velocity = [b"V", &line[1..]].concat();
            lines.push(
                random
                    .pick(&[velocity.as_slice(), b"", b"/* comment", b"EP   55   55"])
                    .to_vec(),
            );
        }
        if !is_record || !random.one_in(lost) {
            lines.push(line);
        }
    }
    sample.lines = lines;
    sample.end = random.pick(&[b"\n", b"\r\n"]);
    sample.ended = random.one_in(2);
}

/// A file as it is published, on which both rules agree: UTC, rising epochs, all positions present, clocks, and blanks between all fields.
pub fn published(random: &mut Random, size: Size) -> Sample {
    let satellites: Vec<[u8; 3]> = (0..size.satellites).map(name).collect();
    let satellite = random.pick(&satellites);
    let mut lines = full_header(*b"UTC", &satellites, size.epochs, 'P');
    let mut instant = YEAR_2000 + i128::from(random.count(-1_800_000_000, 2_900_000_000)) * SECOND;
    for _ in 0..size.epochs {
        lines.push(epoch_line(&Calendar::of(instant), Filled::Blanks));
        for &satellite in &satellites {
            let mut line =
                position_line(satellite, [(); 3].map(|()| apart(random)), Filled::Blanks);
            line.extend(format!("{:14.6}", random.between(-999.0, 999.0)).bytes());
            lines.push(line);
        }
        let any = i128::from(random.count(1, 90_000_000_000)) * STEP;
        instant += random.pick(&[900 * SECOND, 900 * SECOND, any]);
    }
    lines.push(b"EOF".to_vec());
    Sample {
        lines,
        end: b"\n",
        ended: true,
        satellite,
        leap_seconds: 18,
    }
}

/// The name of a satellite: a letter, and a number from 01 to 32.
pub fn name(k: usize) -> [u8; 3] {
    let number = k % 32 + 1;
    let digit = |n: usize| b'0' + n as u8;
    [b"GREC"[k / 32], digit(number / 10), digit(number % 10)]
}

/// A coordinate that leaves a blank before it, and is not zero.
fn apart(random: &mut Random) -> Coordinate {
    let minus = random.one_in(2);
    let most = if minus {
        99_999_999_999
    } else {
        999_999_999_999
    };
    let size = random.pick(&[45_000_000_000, 45_000_000_000, most, 3_000_000]);
    Coordinate {
        minus,
        size: random.count(1, size) as u64,
    }
}

/// One record of either side: nanoseconds since 1970 and metres.
pub type Kept = (i128, [f64; 3]);

/// The records that our library keeps, or its refusal.
pub fn ours_of(sample: &Sample) -> Result<Vec<Kept>, u8> {
    kept(&ours::records(&sample.call()))
}

/// No record instead of the refusal by 13, which says that there is none to keep; the other refusals stay.
pub fn or_none(records: Result<Vec<Kept>, u8>) -> Result<Vec<Kept>, u8> {
    match records {
        Err(NO_RECORD_OR_NO_ROOM) => Ok(Vec::new()),
        other => other,
    }
}

/// The records of an answer whose areas have just their length, or the refusal.
fn kept(answer: &Answer) -> Result<Vec<Kept>, u8> {
    match answer.refusal {
        Some(0) => {}
        number => return Err(number.unwrap_or(0)),
    }
    let areas: Vec<u64> = answer.areas.iter().map(|word| word.bits()).collect();
    let (instants, positions) = areas.split_at(areas.len() / 4);
    let positions = positions.iter().map(|&bits| f64::from_bits(bits));
    let positions: Vec<f64> = positions.collect();
    let instants = instants.iter().map(|&bits| i128::from(bits as i64));
    Ok(instants
        .zip(positions.as_chunks().0.iter().copied())
        .collect())
}

/// The records that the Rust's reader keeps of the satellite, or nothing where it fails.
pub fn rust_of(sample: &Sample) -> Option<Vec<Kept>> {
    let orbits = reference::orbits(&sample.bytes()).ok()?.into_iter();
    let own = orbits.filter(|orbit| orbit.sat_name.as_bytes() == sample.satellite);
    let records = own.flat_map(|orbit| orbit.coordinates).map(|record| {
        let seconds = i128::from(record.time.timestamp());
        let rest = i128::from(record.time.timestamp_subsec_nanos());
        (seconds * SECOND + rest, record.position)
    });
    Some(records.collect())
}
