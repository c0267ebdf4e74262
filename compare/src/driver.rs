//! One call on both sides, recordings of every length, and all the faulty calls of an entry.

use crate::tally::{Tally, Total};
use compare::answers::Answer;
use compare::calls::{Call, Entry};
use compare::checks::{self, COORDINATES, SAMPLES};
use compare::expected::{self, COUNT};
use compare::inputs::faults::{self, Change};
use compare::inputs::paper;

/// Our answer to a call of one entry.
pub type Ours = fn(&Call) -> Answer;

/// How many words of a call or an answer are shown.
const SHOWN: usize = 100;

/// What is noted of the words for where an instant lies: before the first coordinate, from the first to the last, after the last.
pub const PLACES: [&str; 3] = ["before the table", "within the table", "after the table"];

/// Compares our answer to one call with the expected one, every word; answers the expected one.
pub fn compare(tally: &mut Tally, entry: Entry, ours: Ours, call: &Call) -> Answer {
    let answer = ours(call);
    let expected = expected::answer(entry, call);
    tally.record(answer == expected, || {
        tell(&call.arguments(entry), &answer, &expected)
    });
    match expected.refusal {
        Some(number) if number != 0 => tally.note(format!("refused by {number}")),
        _ if expected.has_nan() => tally.note("with a NaN"),
        _ => {}
    }
    note_place(tally, entry, &expected);
    expected
}

/// Counts where the instant of an answer lies, or whether all, some or none of a fit's samples or means lie outside the table: the last word says it.
fn note_place(tally: &mut Tally, entry: Entry, expected: &Answer) {
    let results = &expected.results;
    let Some(last) = results.last() else {
        return;
    };
    match entry {
        Entry::PropagateEcef | Entry::FindPcaTime => tally.note(PLACES[last.bits() as usize]),
        Entry::FitSatellite | Entry::Pass => tally.note(match last.bits() {
            0 => "none outside",
            outside if outside == results[COUNT].bits() => "all outside",
            _ => "some outside",
        }),
        _ => {}
    }
}

/// The arguments of a call and both answers, and which word of them is the first that differs.
pub fn tell(arguments: &[String], answer: &Answer, expected: &Answer) -> String {
    let (ours, theirs) = (answer.words(), expected.words());
    let equal = ours.iter().zip(&theirs).take_while(|(a, b)| a == b);
    format!(
        "{}:\n  ours     {},\n  expected {},\n  the first {} words are equal",
        shown(arguments),
        shown(&ours),
        shown(&theirs),
        equal.count()
    )
}

/// The words, one blank between; of a long list the first ones.
pub fn shown(words: &[String]) -> String {
    if words.len() <= SHOWN {
        return words.join(" ");
    }
    format!("{} ... ({} words)", words[..SHOWN].join(" "), words.len())
}

/// Compares an entry's calls of the paper's case table.
pub fn compare_paper(total: &mut Total, entry: Entry, ours: Ours) {
    let mut tally = Tally::new(format!("{}, the paper's table", entry.name()));
    for call in paper::calls(entry) {
        compare(&mut tally, entry, ours, &call);
    }
    tally.finish(total);
}

/// Compares a recording of each length, from this one to one past the most coordinates of a table; those past the limit of samples are refused by 2.
pub fn compare_lengths(total: &mut Total, entry: Entry, ours: Ours, from: usize) {
    let to = COORDINATES[1] + 1;
    let mut tally = Tally::new(format!("{}, {from} to {to} samples", entry.name()));
    for samples in from..=to {
        let expected = compare(&mut tally, entry, ours, &faults::sound(12, samples));
        let refusal = match samples {
            1..3 if entry == Entry::EstimateMeasuredPcaTime => 9,
            1..=SAMPLES => 0,
            _ => 2,
        };
        assert!(expected.refusal == Some(refusal), "{samples} samples");
    }
    tally.finish(total);
}

/// Compares the refusals of an entry: every fault alone, every two of them at once, every fault of a call that is refused after the checks, and what just
/// passes.
pub fn compare_refusals(total: &mut Total, entry: Entry, ours: Ours) {
    let mut tally = Tally::new(format!("{} refusals", entry.name()));
    let small = faults::sound(12, 7);
    let large = faults::sound(COORDINATES[1], SAMPLES);
    let changes = |list: Vec<Change>| -> Vec<Change> {
        let mine = |change: &Change| entry.makes(change.number, change.part);
        list.into_iter().filter(mine).collect()
    };
    for change in changes(faults::just_passing()) {
        compare_change(&mut tally, entry, ours, &change, &small);
    }
    // The faults are in the order of their numbers; of two the later one is made first.
    let faults = changes(faults::all());
    for (k, fault) in faults.iter().enumerate() {
        compare_change(&mut tally, entry, ours, fault, &small);
        compare_change(&mut tally, entry, ours, fault, &large);
        for later in &faults[k + 1..] {
            compare_two(&mut tally, entry, ours, [fault, later], &small);
        }
    }
    for (number, call) in faults::refused_later(entry) {
        let expected = compare(&mut tally, entry, ours, &call);
        assert!(expected.refusal == Some(number), "it is not refused later");
        for fault in &faults {
            compare_change(&mut tally, entry, ours, fault, &call);
        }
    }
    tally.finish(total);
}

/// One change: the check that it names must be the first that fails.
fn compare_change(tally: &mut Tally, entry: Entry, ours: Ours, change: &Change, call: &Call) {
    let changed = change.made(call);
    let first = checks::first_failing(entry, &changed).unwrap_or(0);
    assert!(
        first == change.number,
        "a fault of {} is one of {first}",
        change.number
    );
    compare(tally, entry, ours, &changed);
}

/// Two faults at once: the check of the lower number must be the first that fails.
fn compare_two(tally: &mut Tally, entry: Entry, ours: Ours, two: [&Change; 2], call: &Call) {
    let [fault, later] = two;
    let changed = fault.made(&later.made(call));
    let first = checks::first_failing(entry, &changed).unwrap_or(0);
    let undone = fault.number == later.number && first == 0;
    assert!(
        first == fault.number || undone,
        "two faults come to {first}"
    );
    compare(tally, entry, ours, &changed);
}
