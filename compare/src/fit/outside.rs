//! How many samples or means of a fit lie outside the table, by how they can lie there.

use crate::driver::{Ours, compare as compare_call};
use crate::ours::fit as ours;
use crate::tally::{Tally, Total};
use compare::calls::{Call, Entry};
use compare::inputs::integers::INSTANT_LIMIT;
use compare::inputs::outside::{self, AT_THE_ENDS};
use compare::inputs::random::Random;
use compare::place::{self, AFTER, BEFORE, Reported};
use compare::reference::{self, TabulatedOrbit};

/// How many calls of each kind.
const CALLS: usize = 50;

/// What some reports of either entry must show.
const MET: [&str; 15] = [
    "all outside",
    "all before",
    "all after",
    "none outside",
    "some outside",
    "some before, none after",
    "some after, none before",
    "some before, some after",
    "outside without a position",
    "moved past the range of an instant",
    "a shift above zero",
    "a shift below zero",
    "the truncation decides, above zero",
    "the truncation decides, below zero",
    "rounding down would be another number",
];

/// Compares both entries.
pub fn compare(total: &mut Total) {
    compare_entry(total, Entry::FitSatellite, ours::fit, 64);
    compare_entry(total, Entry::Pass, ours::pass, 65);
}

/// Every kind of recording.
fn compare_entry(total: &mut Total, entry: Entry, ours: Ours, seed: u64) {
    let mut tally = Tally::new(format!("{}, outside the table", entry.name()));
    let mut random = Random::new(seed);
    for draw in outside::KINDS {
        for _ in 0..CALLS {
            let call = draw(&mut random, entry);
            let expected = compare_call(&mut tally, entry, ours, &call);
            if let Some(reported) = Reported::of(entry, &call, &expected) {
                note_places(&mut tally, &call, &reported.moved());
                note_shift(&mut tally, &reported);
                note_samples(&mut tally, &call, &reported);
            }
        }
    }
    tally.must_have_noted(&MET);
    tally.must_have_noted(&AT_THE_ENDS);
    if entry == Entry::Pass {
        tally.must_have_noted(&["of the samples it would be another number"]);
    }
    tally.finish(total);
}

/// Counts on which sides the moved instants lie, and what else is to be said of them.
fn note_places(tally: &mut Tally, call: &Call, moved: &[i64]) {
    let table = &call.table.instants;
    let lie = |place: i64| move |&&n: &&i64| place::place(table, n) == place;
    let before = moved.iter().filter(lie(BEFORE)).count();
    let after = moved.iter().filter(lie(AFTER)).count();
    let some = before + after < moved.len();
    tally.note_if("all before", before == moved.len());
    tally.note_if("all after", after == moved.len());
    tally.note_if("some before, none after", some && before > 0 && after == 0);
    tally.note_if("some after, none before", some && after > 0 && before == 0);
    tally.note_if("some before, some after", before > 0 && after > 0);
    for what in AT_THE_ENDS {
        let named = |&n: &i64| outside::name_at_the_ends(&call.table, n) == Some(what);
        tally.note_if(what, moved.iter().any(named));
    }
    let beyond = moved.iter().any(|n| n.abs() > INSTANT_LIMIT);
    tally.note_if("moved past the range of an instant", beyond);
    let orbit = reference::orbit(&call.table);
    let lost = |&n: &i64| orbit.propagate(reference::instant(n)).is_none();
    let mut outside = moved.iter().filter(|&&n| place::outside(table, &[n]) == 1);
    tally.note_if("outside without a position", outside.any(lost));
}

/// Counts the sign of the shift, and where the way of its rounding decides.
fn note_shift(tally: &mut Tally, reported: &Reported) {
    let (above, below) = (reported.shift > 0.0, reported.shift < 0.0);
    let decides = reported.is_decided_by_truncation();
    tally.note_if("a shift above zero", above);
    tally.note_if("a shift below zero", below);
    tally.note_if("the truncation decides, above zero", decides && above);
    tally.note_if("the truncation decides, below zero", decides && below);
    let rounded_down = (reported.shift * 1e6).floor() as i64 * 1_000;
    tally.note_if(
        "rounding down would be another number",
        reported.is_another_if_moved_by(rounded_down),
    );
}

/// Counts where the samples, moved alike, are not as many outside as the means.
fn note_samples(tally: &mut Tally, call: &Call, reported: &Reported) {
    let samples = reference::samples(&call.recording);
    let moved = place::earlier(&samples, place::moves(reported.shift));
    let of_samples = place::outside(reported.table, &moved);
    let of_means = place::outside(reported.table, &reported.moved());
    tally.note_if(
        "of the samples it would be another number",
        of_samples != of_means,
    );
}
