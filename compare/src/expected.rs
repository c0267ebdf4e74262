//! What an entry must answer: the paper's refusal where a check fails, otherwise what the Rust answers.

use crate::answers::{Answer, both_areas, doubles, marked_frequencies, marked_instants};
use crate::calls::{Call, Entry, Part};
use crate::checks;
use crate::inputs::tables::Table;
use crate::place;
use crate::reference::{self, Measured, Report, Samples, TabulatedOrbit};
use crate::words::Word;

/// The refusal where the Rust finds no inverse.
const NO_INVERSE: u8 = 8;

/// The refusal where the Rust finds no slope below zero.
const NO_SLOPE: u8 = 9;

/// The refusal where the Rust finds no usable candidate.
const NO_CANDIDATE: u8 = 10;

/// Where the words of a report have the count, the instant that it was taken about, and the fallback.
pub const COUNT: usize = 3;
pub const APPROACH: usize = 4;
pub const FALLBACK: usize = 5;

/// The answer, with both areas where the entry is lent them.
pub fn answer(entry: Entry, call: &Call) -> Answer {
    match checks::first_failing(entry, call) {
        Some(number) if entry.takes(Part::Areas) => {
            Answer::refused(number).beside(areas(call, &[]))
        }
        Some(number) => Answer::refused(number),
        None => rust_answer(entry, call),
    }
}

/// What the Rust answers to inputs that pass the checks.
fn rust_answer(entry: Entry, call: &Call) -> Answer {
    match entry {
        Entry::GetChebyshevModel => model(call),
        Entry::Evaluate => evaluation(call),
        Entry::PropagateEcef => propagation(call),
        Entry::FindPcaTime => closest(call),
        Entry::DownsampleData => means(call),
        Entry::EstimateMeasuredPcaTime => approach(call),
        Entry::SteepestSlope => slope(call),
        Entry::EstimateSlantRange => Answer::unrefusable(Word::Double(reference::slant_range(
            call.centre,
            call.slope,
        ))),
        Entry::FitSatellite => fit(call),
        Entry::Pass => pass(call),
    }
}

/// What is asked of the call's table at its tolerance.
fn asked<A>(call: &Call, ask: impl FnOnce(&dyn TabulatedOrbit) -> A) -> A {
    reference::at(call.tolerance, &call.table, ask)
}

/// The 32 numbers of the model.
fn model(call: &Call) -> Answer {
    let instant = reference::instant(call.instant);
    let model = asked(call, |orbit| orbit.model(instant));
    answer_or(NO_INVERSE, model.map(|numbers| doubles(&numbers)))
}

/// Position and velocity by a model.
fn evaluation(call: &Call) -> Answer {
    let model = reference::model_of(&call.model);
    let motion = reference::evaluate(&model, reference::instant(call.instant));
    let motion = motion.expect("an i64 holds the instant");
    Answer::answered(motion_words(motion))
}

/// Position and velocity by a table, and where the instant lies.
fn propagation(call: &Call) -> Answer {
    let instant = reference::instant(call.instant);
    let motion = asked(call, |orbit| orbit.propagate(instant));
    let words = motion.map(|motion| {
        let mut words = motion_words(motion);
        words.push(place_word(&call.table, call.instant));
        words
    });
    answer_or(NO_INVERSE, words)
}

/// The instant of the closest approach, and where it lies.
fn closest(call: &Call) -> Answer {
    let instant = reference::instant(call.instant);
    let found = asked(call, |orbit| orbit.closest(call.observer, instant));
    let found = reference::nanoseconds(found.expect("the Rust always finds one"));
    Answer::answered(vec![Word::Whole(found), place_word(&call.table, found)])
}

/// Where an instant lies.
fn place_word(table: &Table, instant: i64) -> Word {
    Word::Whole(place::place(&table.instants, instant))
}

/// The count of the means, and the means at the front of the areas.
fn means(call: &Call) -> Answer {
    let means = reference::means(&reference::samples(&call.recording));
    Answer::answered(vec![Word::Whole(means.len() as i64)]).beside(areas(call, &means))
}

/// The instant of the measured approach.
fn approach(call: &Call) -> Answer {
    let found = reference::approach(&reference::samples(&call.recording));
    let words = found.map(|found| vec![Word::Whole(reference::nanoseconds(found))]);
    answer_or(NO_SLOPE, words)
}

/// The steepest slope.
fn slope(call: &Call) -> Answer {
    let slope = reference::steepest_slope(&reference::samples(&call.recording));
    Answer::answered(vec![Word::Double(slope)])
}

/// The report of a fit; its count is that of the samples, its instant the given one.
fn fit(call: &Call) -> Answer {
    let samples = reference::samples(&call.recording);
    let given = Measured {
        instant: reference::instant(call.instant),
        fallback: false,
    };
    let report = asked(call, |orbit| {
        orbit.fit(&samples, call.observer, call.centre, given.instant)
    });
    answer_or(
        NO_CANDIDATE,
        report.map(|report| report_words(report, &call.table, &samples, given)),
    )
}

/// The report of a pass, and the means at the front of the areas, under the refusal of the fit too.
fn pass(call: &Call) -> Answer {
    let samples = reference::samples(&call.recording);
    let (means, report) = asked(call, |orbit| {
        reference::pass(orbit, &samples, call.observer, call.centre)
    });
    let words =
        report.map(|report| report_words(report, &call.table, &means, reference::measured(&means)));
    answer_or(NO_CANDIDATE, words).beside(areas(call, &means))
}

/// The results, or the refusal where there are none.
fn answer_or(refusal: u8, results: Option<Vec<Word>>) -> Answer {
    results.map_or_else(|| Answer::refused(refusal), Answer::answered)
}

/// The six words of position and velocity.
fn motion_words((position, velocity): ([f64; 3], [f64; 3])) -> Vec<Word> {
    doubles([position, velocity].as_flattened())
}

/// Clock offset, frequency offset, RMSE, count, the instant that they were taken about, 1 or 0 for the fallback, and how many lie outside the table.
fn report_words(
    (clock, frequency, rmse): Report,
    table: &Table,
    fitted: &Samples,
    measured: Measured,
) -> Vec<Word> {
    let moved = place::earlier(fitted, place::moves(clock));
    let mut words = doubles(&[clock, frequency, rmse]);
    let wholes = [
        fitted.len() as i64,
        reference::nanoseconds(measured.instant),
        i64::from(measured.fallback),
        place::outside(&table.instants, &moved) as i64,
    ];
    words.extend(wholes.map(Word::Whole));
    words
}

/// Both areas with the means at the front and the markers behind them.
fn areas(call: &Call, means: &Samples) -> Vec<Word> {
    let mut instants = marked_instants(call.areas[0]);
    let mut frequencies = marked_frequencies(call.areas[1]);
    for (k, &(instant, frequency)) in means.iter().enumerate() {
        instants[k] = reference::nanoseconds(instant);
        frequencies[k] = frequency;
    }
    both_areas(&instants, &frequencies)
}
