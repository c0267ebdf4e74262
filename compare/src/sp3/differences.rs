//! Small files that show where the Rust's reader keeps other records than the rules do.
//!
//! Each has a header by the description, the lines named here, and EOF. Both sides must answer what is said of them.

mod list;

use super::folder;
use super::rust::{Kept, ours_of, rust_of};
use crate::tally::{Tally, Total};
use compare::description::HEADER;
use compare::description::calendar::SECOND;
use compare::inputs::sp3::places::{SATELLITE, YEAR_2024};
use compare::inputs::sp3::{Sample, full_header};
use list::{BOTH, E0, E1, FIRST, NUMBERS, P1, P2, RECORDS};

/// What the Rust does, the file that shows it, and both answers.
type Shown = (&'static str, Sample, &'static str, &'static str);

/// Compares all of them, and prints one line for each.
pub fn compare(total: &mut Total) {
    let mut tally = Tally::new("read_sp3 and parse_sp3_file, each difference");
    let by_lines = RECORDS.iter().chain(&NUMBERS);
    let by_lines = by_lines.map(|&(what, lines, ours, rust)| (what, in_utc(lines), ours, rust));
    for (what, sample, ours, rust) in by_lines.chain(others()) {
        let (our, their) = (our_words(&sample), rust_words(&sample));
        println!("  parse_sp3_file {what}: ours {our}; the Rust {their}");
        tally.record(our == ours && their == rust, || {
            let path = folder::keep_differing(&sample.bytes());
            format!("{what}: not ours {ours}; the Rust {rust}; the file is {path}")
        });
    }
    tally.finish(total);
}

/// A file of these lines in UTC.
fn in_utc(body: &[&str]) -> Sample {
    file(*b"UTC", body)
}

/// A file of these lines.
fn file(time_system: [u8; 3], body: &[&str]) -> Sample {
    let mut lines = full_header(time_system, &[SATELLITE, *b"G06"], 2, 'P');
    lines.extend(body.iter().map(|line| line.as_bytes().to_vec()));
    lines.push(b"EOF".to_vec());
    Sample {
        lines,
        end: b"\n",
        ended: true,
        satellite: SATELLITE,
        leap_seconds: 18,
    }
}

/// Those that are not by their lines alone: time systems, the header, bytes that are no text, a name.
fn others() -> [Shown; 6] {
    let gps = file(*b"GPS", &[E0, P1]);
    let glonass = file(*b"GLO", &[E0, P1]);
    let mut without_header = in_utc(&[E0, P1, E1, P2]);
    without_header.lines.drain(..HEADER.len());
    let mut no_text = in_utc(&[E0, P1]);
    no_text.lines[HEADER.len() - 1].push(0xff);
    let mut blank = in_utc(&[E0, &P1.replace("G05", "  5")]);
    blank.satellite = *b"  5";
    let mut inside = in_utc(&[E0, &P1.replace("G05", "G 5")]);
    inside.satellite = *b"G 5";
    [
        ("takes GPS for UTC", gps, "-18 s x 1000.0", FIRST),
        ("takes any other for UTC", glonass, "refused by 12", FIRST),
        ("wants no header", without_header, "refused by 11", BOTH),
        ("fails at a byte of no UTF-8", no_text, FIRST, "an error"),
        (
            "finds no name with a blank first",
            blank,
            FIRST,
            "no record",
        ),
        (
            "finds no name with a blank inside",
            inside,
            FIRST,
            "no record",
        ),
    ]
}

/// What our library answers, in words.
fn our_words(sample: &Sample) -> String {
    match ours_of(sample) {
        Ok(records) => words(&records),
        Err(number) => format!("refused by {number}"),
    }
}

/// What the Rust's reader answers, in words.
fn rust_words(sample: &Sample) -> String {
    rust_of(sample).map_or("an error".to_string(), |records| words(&records))
}

/// Of each record the seconds after the year 2024 began, and x in metres.
fn words(records: &[Kept]) -> String {
    if records.is_empty() {
        return "no record".to_string();
    }
    let list = records.iter().map(|(instant, position)| {
        let seconds = (instant - YEAR_2024) as f64 / SECOND as f64;
        format!("{seconds} s x {:?}", position[0])
    });
    list.collect::<Vec<String>>().join(", ")
}
