//! The cases at other tolerances than the Rust's, of each entry that takes one.

use compare::calls::{Call, Entry, Part};
use compare::expected;
use compare::inputs::closest;
use compare::inputs::faults;
use compare::inputs::random::Random;
use compare::inputs::tolerances;
use compare::reference::TOLERANCE;

/// The entries.
const ENTRIES: [Entry; 5] = [
    Entry::GetChebyshevModel,
    Entry::PropagateEcef,
    Entry::FindPcaTime,
    Entry::FitSatellite,
    Entry::Pass,
];

/// How many rows and samples the calls of fit and pass have, and up to how many rows the others.
const ROWS: usize = 12;
const SAMPLES: usize = 5;
const LONGEST: usize = 14;

/// The cases of all five.
pub fn cases() -> Vec<(Entry, Call)> {
    let mut random = Random::new(93);
    let mut list = Vec::new();
    for entry in ENTRIES {
        let values = tolerances::values();
        let calls = values.map(|tolerance| that_matters(&mut random, entry, tolerance));
        list.extend(calls.map(|call| (entry, call)));
        list.extend(at_the_deviation(&mut random, entry).map(|call| (entry, call)));
        list.extend(refused_first(entry).map(|call| (entry, call)));
    }
    list.extend(every_fault().map(|call| (Entry::PropagateEcef, call)));
    list
}

/// A call by a table whose gaps are off by about the tolerance.
fn about(random: &mut Random, entry: Entry, tolerance: f64) -> Call {
    if matches!(entry, Entry::FitSatellite | Entry::Pass) {
        return tolerances::heard(random, tolerance, ROWS, SAMPLES);
    }
    loop {
        let table = tolerances::table(random, tolerance);
        if table.instants.len() <= LONGEST {
            return closest::by(random, table).at(tolerance);
        }
    }
}

/// The first of these whose answer is another than at 1.0.
fn that_matters(random: &mut Random, entry: Entry, tolerance: f64) -> Call {
    loop {
        let call = about(random, entry, tolerance);
        if expected::answer(entry, &call) != expected::answer(entry, &call.at(TOLERANCE)) {
            return call;
        }
    }
}

/// One call at the largest deviation of its window, at the double below it and at the one above it; the first two answer otherwise.
fn at_the_deviation(random: &mut Random, entry: Entry) -> [Call; 3] {
    loop {
        let call = about(random, entry, 0.5);
        let about = tolerances::about_the_deviation(&call.table, call.instant);
        let three = about.map(|tolerance| call.at(tolerance));
        if expected::answer(entry, &three[0]) != expected::answer(entry, &three[1]) {
            return three;
        }
    }
}

/// Calls that are refused after the checks, with a tolerance that is refused first.
fn refused_first(entry: Entry) -> impl Iterator<Item = Call> {
    let calls = faults::refused_later(entry).into_iter();
    calls.map(|(_, call)| call.at(-1.0))
}

/// Every tolerance that is refused.
fn every_fault() -> impl Iterator<Item = Call> {
    let faults = faults::all().into_iter();
    let faults = faults.filter(|fault| fault.part == Part::Tolerance);
    faults.map(|fault| fault.made(&faults::sound(10, 1)))
}
