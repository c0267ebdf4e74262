//! The reader of orbit files.

mod coda;
mod differences;
mod folder;
mod rust;

use crate::driver::shown;
use crate::ours::sp3 as ours;
use crate::tally::{Tally, Total};
use crate::timing::{Row, row};
use compare::answers::Answer;
use compare::description::{self, HEADER};
use compare::files::FileCall;
use compare::inputs::random::Random;
use compare::inputs::sp3::well_formed::{self, Size};
use compare::inputs::sp3::{Filled, damage, dates, faults, places};
use compare::reference;
use std::hint::black_box;

/// How many well-formed files are drawn, and how many that are damaged then.
const WELL_FORMED: usize = 40_000;
const DAMAGED: usize = 160_000;

/// How many files of bytes without any order.
const RANDOM: usize = 10_000;

/// How many dates of any year.
const DATES: usize = 20_000;

/// The largest files: as many satellites as a header can name, and many epochs.
const LARGE: [Size; 6] = [
    size(85, 96),
    size(85, 97),
    size(40, 288),
    size(2, 2880),
    size(1, 40_000),
    size(3, 1),
];

/// A size.
const fn size(satellites: usize, epochs: usize) -> Size {
    Size { satellites, epochs }
}

/// Compares the entry with the description, with the Rust's reader and with coda's.
pub fn compare(total: &mut Total) {
    compare_well_formed(total);
    compare_damaged(total);
    compare_without_order(total);
    compare_places(total);
    compare_dates(total);
    compare_refusals(total);
    rust::compare(total);
    differences::compare(total);
    coda::compare(total);
}

/// Compares our answer to one call with that by the description, every word of both areas.
fn compare_call(tally: &mut Tally, call: &FileCall) -> Answer {
    let answer = ours::records(call);
    let expected = description::answer(call);
    tally.record(answer == expected, || tell(call, &answer, &expected));
    match expected.refusal {
        Some(number) if number != 0 => tally.note(format!("refused by {number}")),
        _ => tally.note("answered"),
    }
    expected
}

/// The call and both answers; the whole file is kept in a file of its own.
fn tell(call: &FileCall, answer: &Answer, expected: &Answer) -> String {
    format!(
        "{}:\n  ours     {},\n  expected {},\n  the file is {}",
        shown(&call.arguments()),
        shown(&answer.words()),
        shown(&expected.words()),
        folder::keep_differing(&call.bytes)
    )
}

/// Files by the description, small ones and the largest.
fn compare_well_formed(total: &mut Total) {
    let mut tally = Tally::new("read_sp3, well-formed files");
    let mut random = Random::new(100);
    let mut sizes: Vec<Size> = LARGE.into();
    sizes.extend((0..WELL_FORMED).map(|_| well_formed::size(&mut random)));
    for size in sizes {
        let sample = well_formed::draw(&mut random, size);
        let expected = compare_call(&mut tally, &sample.drawn_call(&mut random));
        let refused = matches!(expected.refusal, Some(11 | 12));
        assert!(!refused, "a well-formed file is not by the description");
    }
    tally.finish(total);
}

/// Small files with one to four damages, each number of them as often; one file in twenty is cut off as well.
fn compare_damaged(total: &mut Total) {
    let mut tally = Tally::new("read_sp3, damaged files");
    let mut random = Random::new(101);
    for _ in 0..DAMAGED {
        let size = Size {
            satellites: 1 + random.below(3),
            epochs: 1 + random.below(4),
        };
        let mut sample = well_formed::draw(&mut random, size);
        for _ in 0..1 + random.below(4) {
            random.pick(&damage::KINDS)(&mut random, &mut sample);
        }
        let mut call = sample.drawn_call(&mut random);
        if random.one_in(20) {
            call.bytes.truncate(random.below(call.bytes.len() + 1));
        }
        compare_call(&mut tally, &call);
    }
    tally.finish(total);
}

/// Bytes without any order.
fn compare_without_order(total: &mut Total) {
    let mut tally = Tally::new("read_sp3, bytes in no order");
    let mut random = Random::new(104);
    for _ in 0..RANDOM {
        compare_call(&mut tally, &without_order(&mut random));
    }
    tally.finish(total);
}

/// Any bytes; mostly behind a header, and then few different ones, so that lines begin as they should.
fn without_order(random: &mut Random) -> FileCall {
    let length = random.below(200);
    let mut sample = places::small(*b"GPS", Filled::Blanks, b"", b"EOF");
    let mut bytes = Vec::new();
    if !random.one_in(8) {
        sample.lines.truncate(HEADER.len() + random.below(3));
        sample.ended = true;
        bytes = sample.bytes();
    }
    let few = b"\n\n*PPG05 ..0123-EOF";
    let any = random.one_in(3);
    bytes.extend((0..length).map(|_| match any {
        true => random.bits() as u8,
        false => random.pick(few),
    }));
    FileCall::with_room(bytes, sample.satellite, sample.leap_seconds, [1, 1])
}

/// Small files that are damaged at every place.
fn compare_places(total: &mut Total) {
    let mut columns = Tally::new("read_sp3, every column hit");
    let mut lines = Tally::new("read_sp3, every line cut, lost, doubled, swapped, put in");
    let every_byte: Vec<u8> = (0..=255).collect();
    for (k, sample) in places::all_small().iter().enumerate() {
        let bytes = if k % 6 == 1 {
            &every_byte
        } else {
            damage::HITS.as_slice()
        };
        places::columns_hit(sample, bytes, &mut |call| {
            compare_call(&mut columns, &call);
        });
        let mut visit = |call: FileCall| {
            compare_call(&mut lines, &call);
        };
        places::cut(sample, &mut visit);
        places::moved(sample, &mut visit);
        places::put_in(sample, &mut visit);
    }
    columns.finish(total);
    lines.finish(total);
}

/// Dates: real ones and others, about the limit, every day within it.
fn compare_dates(total: &mut Total) {
    let mut tally = Tally::new("read_sp3, dates");
    let mut random = Random::new(102);
    let mut visit = |call: FileCall| {
        compare_call(&mut tally, &call);
    };
    dates::about_dates(&mut visit);
    dates::about_the_limit(&mut visit);
    dates::every_day(&mut random, [1842, 2097], &mut visit);
    for _ in 0..DATES {
        visit(dates::any_date(&mut random));
    }
    tally.finish(total);
}

/// Faults of each refusal alone and together; areas of every length.
fn compare_refusals(total: &mut Total) {
    let mut tally = Tally::new("read_sp3, faults together and areas");
    faults::together(&mut |refusal, call| {
        let expected = compare_call(&mut tally, &call);
        let first = expected.refusal.unwrap_or(0);
        assert!(first == refusal, "faults of {refusal} come to {first}");
    });
    let mut visit = |call: FileCall| {
        compare_call(&mut tally, &call);
    };
    faults::hidden(&mut visit);
    faults::areas(&mut visit);
    tally.finish(total);
}

/// Times a day's file and a short one, of which one satellite is read.
pub fn time() -> Vec<Row> {
    vec![
        time_reading("read_sp3, a day of 32 satellites", 96),
        time_reading("read_sp3, 10 epochs of 32", 10),
    ]
}

/// A file of 32 satellites, as it is published: ours reads one of them, the Rust all.
fn time_reading(name: &'static str, epochs: usize) -> Row {
    let sample = rust::published(&mut Random::new(103), size(32, epochs));
    let bytes = sample.bytes();
    let mut instants = vec![0; epochs];
    let mut positions = vec![0.0; 3 * epochs];
    let mut count = 0;
    let timed = row(
        name,
        &[()],
        |()| {
            let areas = black_box((&mut instants[..], &mut positions[..]));
            let count = black_box(&mut count);
            ours::write_records(&bytes, sample.satellite, sample.leap_seconds, areas, count)
        },
        |()| reference::orbits(&bytes),
    );
    assert!(count == epochs as u64, "{count} of {epochs} records read");
    timed.of_bytes(bytes.len())
}
