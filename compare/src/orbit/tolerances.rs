//! Model, propagation and closest approach at other tolerances than the Rust's, and the changed text at its own.

use super::calls_of_a_table;
use crate::driver::{Ours, shown};
use crate::ours::orbit as ours;
use crate::tally::{Tally, Total};
use crate::tolerance::{ANOTHER, WINDOWS, compare as compare_call, note_window};
use compare::answers::{self, Answer};
use compare::calls::{Call, Entry};
use compare::expected;
use compare::inputs::closest;
use compare::inputs::passes::{self, Size};
use compare::inputs::random::Random;
use compare::inputs::tables::{self, SPACINGS, Table};
use compare::inputs::tolerances::{self, OUT_OF_REACH};
use compare::reference::{self, TOLERANCE, TabulatedOrbit};
use compare::words::Word;

/// How many tables of each spacing, for each tolerance; each is asked for twelve instants.
const TABLES: usize = 20;

/// How many tables whose gaps are off by about the tolerance, for each; each is asked for twelve instants.
const ABOUT: usize = 200;

/// How many tables of each spacing whose own largest deviations are the tolerances; each is asked for twelve instants, at three tolerances.
const AT_THE_DEVIATION: usize = 40;

/// How many closest approaches of each kind, for each tolerance; and how many tables of which one window's own largest deviation is the tolerance.
const CLOSEST: usize = 100;
const CLOSEST_AT_THE_DEVIATION: usize = 300;

/// How many tables of each spacing both texts are asked for at 1.0, twelve instants of each; and the size of the fits that they are asked for.
const TEXTS: usize = 40;
const FITS: Size = Size {
    rows: 20,
    samples: 8,
};

/// A deviation is about a tolerance if it is no farther from it than this part of it, or, of one that is all but zero, this many seconds.
const NEAR: f64 = 1e-6;
const NEAR_ZERO: f64 = 1e-15;

/// The refusals of model and propagation that only one of two tolerances gives.
const REFUSALS: [&str; 2] = [
    "answered, refused by 8 at 1.0",
    "refused by 8, answered at 1.0",
];

/// Compares the three entries.
pub fn compare(total: &mut Total) {
    compare_spacings(total);
    compare_about(total);
    compare_at_the_deviation(total);
    compare_closest(total);
    compare_texts(total);
}

/// The counts of model and propagation.
fn tallies(what: &str) -> [Tally; 2] {
    [Entry::GetChebyshevModel, Entry::PropagateEcef]
        .map(|entry| Tally::new(format!("{}, {what}", entry.name())))
}

/// Model and propagation of one call.
fn compare_both([models, propagations]: &mut [Tally; 2], call: &Call) {
    compare_one(models, Entry::GetChebyshevModel, ours::model, call);
    compare_one(propagations, Entry::PropagateEcef, ours::propagation, call);
}

/// One of them; what is expected must go by how even the window is.
fn compare_one(tally: &mut Tally, entry: Entry, ours: Ours, call: &Call) {
    let expected = compare_call(tally, entry, ours, call);
    note_window(tally, call, call.instant);
    hold_to_window(entry, call, &expected);
}

/// The answer must be that of any other tolerance that makes the window as even, by the unchanged text too if it does.
fn hold_to_window(entry: Entry, call: &Call, expected: &Answer) {
    let deviation = tolerances::deviation(&call.table, call.instant);
    let even = deviation <= call.tolerance;
    let extreme = if even { f64::MAX } else { 0.0 };
    let mut alike = vec![extreme];
    if even == (deviation <= TOLERANCE) {
        alike.push(TOLERANCE);
    }
    for tolerance in alike {
        let other = expected::answer(entry, &call.at(tolerance));
        assert!(*expected == other, "at {tolerance:?} it is another window");
    }
}

/// Every spacing of tables at every tolerance.
fn compare_spacings(total: &mut Total) {
    let mut tallies = tallies("other tolerances");
    let mut random = Random::new(44);
    for tolerance in tolerances::values() {
        for spacing in SPACINGS {
            for _ in 0..TABLES {
                for call in calls_of_a_table(&mut random, spacing) {
                    compare_both(&mut tallies, &call.at(tolerance));
                }
            }
        }
    }
    for tally in tallies {
        tally.must_have_noted(&WINDOWS[..2]);
        tally.must_have_noted(&[ANOTHER]);
        tally.must_have_noted(&REFUSALS);
        tally.finish(total);
    }
}

/// Tables whose gaps are off by about the tolerance; at each one, a little less and a little more must be met.
fn compare_about(total: &mut Total) {
    let mut tallies = tallies("gaps about the tolerance");
    let mut random = Random::new(45);
    for tolerance in tolerances::values() {
        for _ in 0..ABOUT {
            let table = tolerances::table(&mut random, tolerance);
            for call in calls_at(&mut random, &table, tolerance) {
                compare_both(&mut tallies, &call);
                tallies
                    .iter_mut()
                    .for_each(|tally| note_about(tally, &call));
            }
        }
    }
    for tally in tallies {
        tally.must_have_noted(&WINDOWS);
        tally.must_have_noted(&[ANOTHER]);
        for tolerance in tolerances::values()
            .into_iter()
            .filter(|&x| x < OUT_OF_REACH)
        {
            let just = ["even", "uneven"].map(|even| just(even, tolerance));
            tally.must_have_noted(&just.each_ref().map(String::as_str));
        }
        tally.finish(total);
    }
}

/// Each instant asked of a table, at this tolerance.
fn calls_at(random: &mut Random, table: &Table, tolerance: f64) -> [Call; 12] {
    tables::asked(random, table).map(|instant| Call {
        table: table.clone(),
        instant,
        tolerance,
        ..Call::default()
    })
}

/// What is noted of a window that is just even or just uneven at a tolerance.
fn just(even: &str, tolerance: f64) -> String {
    format!("just {even} at {tolerance:?}")
}

/// Counts where the largest deviation is about the tolerance.
fn note_about(tally: &mut Tally, call: &Call) {
    let tolerance = call.tolerance;
    let more = tolerances::deviation(&call.table, call.instant) - tolerance;
    if more.abs() <= (tolerance * NEAR).max(NEAR_ZERO) {
        let even = if more <= 0.0 { "even" } else { "uneven" };
        tally.note(just(even, tolerance));
    }
}

/// The largest deviation of a window as the tolerance, by which it is even, the next double below it, by which it is not, and the next above it.
fn compare_at_the_deviation(total: &mut Total) {
    let mut tallies = tallies("at the largest deviation");
    let mut random = Random::new(46);
    for spacing in SPACINGS {
        for _ in 0..AT_THE_DEVIATION {
            for call in calls_of_a_table(&mut random, spacing) {
                for tolerance in tolerances::about_the_deviation(&call.table, call.instant) {
                    compare_both(&mut tallies, &call.at(tolerance));
                }
            }
        }
    }
    for tally in tallies {
        tally.must_have_noted(&WINDOWS);
        tally.must_have_noted(&[ANOTHER]);
        tally.must_have_noted(&REFUSALS);
        tally.finish(total);
    }
}

/// The closest approach: every kind and tables whose gaps are off by about the tolerance, and those of which a window's own largest deviation is it.
fn compare_closest(total: &mut Total) {
    let mut tally = Tally::new("find_pca_time, other tolerances");
    let mut random = Random::new(47);
    for tolerance in tolerances::values() {
        for draw in closest::KINDS {
            for _ in 0..CLOSEST {
                let call = draw(&mut random);
                compare_one_closest(&mut tally, &call.at(tolerance));
            }
        }
        for _ in 0..CLOSEST {
            let call = about(&mut random, tolerance);
            compare_one_closest(&mut tally, &call);
        }
    }
    for _ in 0..CLOSEST_AT_THE_DEVIATION {
        let draw = random.pick(&closest::KINDS);
        let call = draw(&mut random);
        for tolerance in tolerances::about_the_deviation(&call.table, call.instant) {
            compare_one_closest(&mut tally, &call.at(tolerance));
        }
    }
    tally.must_have_noted(&WINDOWS);
    tally.must_have_noted(&[ANOTHER]);
    tally.finish(total);
}

/// A satellite, or any observer, with a table whose gaps are off by about the tolerance.
fn about(random: &mut Random, tolerance: f64) -> Call {
    if random.one_in(2) {
        return tolerances::heard(random, tolerance, 14, 1);
    }
    let table = tolerances::table(random, tolerance);
    closest::by(random, table).at(tolerance)
}

/// One closest approach, and the window about the instant that is found.
fn compare_one_closest(tally: &mut Tally, call: &Call) {
    let expected = compare_call(tally, Entry::FindPcaTime, ours::closest, call);
    note_window(tally, call, expected.results[0].bits() as i64);
}

/// The changed text at the Rust's tolerance must answer as the unchanged one does: what was replaced is all that differs.
fn compare_texts(total: &mut Total) {
    let mut tally = Tally::new("the changed text at 1.0");
    let mut random = Random::new(48);
    for spacing in SPACINGS {
        for _ in 0..TEXTS {
            for call in calls_of_a_table(&mut random, spacing) {
                compare_text(&mut tally, &call, |orbit| motion_words(orbit, &call));
            }
        }
    }
    for draw in closest::KINDS {
        for _ in 0..CLOSEST {
            let call = draw(&mut random);
            compare_text(&mut tally, &call, |orbit| closest_words(orbit, &call));
        }
    }
    for draw in passes::KINDS {
        let call = draw(&mut random, FITS);
        compare_text(&mut tally, &call, |orbit| fit_words(orbit, &call));
    }
    tally.finish(total);
}

/// What both texts answer to one question about the call's table.
fn compare_text(tally: &mut Tally, call: &Call, ask: impl Fn(&dyn TabulatedOrbit) -> Vec<Word>) {
    let changed = reference::by_the_changed_text(TOLERANCE, &call.table, &ask);
    let unchanged = ask(&reference::orbit(&call.table));
    tally.record(changed == unchanged, || {
        let arguments = call.arguments(Entry::FitSatellite);
        format!("of {}", shown(&arguments))
    });
}

/// The numbers of the model, then position and velocity; none where the window has no inverse.
fn motion_words(orbit: &dyn TabulatedOrbit, call: &Call) -> Vec<Word> {
    let instant = reference::instant(call.instant);
    let mut words = Vec::new();
    if let Some(model) = orbit.model(instant) {
        words.extend(answers::doubles(&model));
    }
    if let Some((position, velocity)) = orbit.propagate(instant) {
        words.extend(answers::doubles(&position));
        words.extend(answers::doubles(&velocity));
    }
    words
}

/// The instant of the closest approach.
fn closest_words(orbit: &dyn TabulatedOrbit, call: &Call) -> Vec<Word> {
    let found = orbit.closest(call.observer, reference::instant(call.instant));
    let found = found.map(reference::nanoseconds);
    found.map(Word::Whole).into_iter().collect()
}

/// The three doubles of a fit.
fn fit_words(orbit: &dyn TabulatedOrbit, call: &Call) -> Vec<Word> {
    let samples = reference::samples(&call.recording);
    let measured = reference::instant(call.instant);
    let report = orbit.fit(&samples, call.observer, call.centre, measured);
    let doubles = report.map(|(clock, frequency, rmse)| [clock, frequency, rmse]);
    doubles.map_or(Vec::new(), |doubles| answers::doubles(&doubles))
}
