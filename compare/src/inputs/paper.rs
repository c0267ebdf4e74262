//! The paper's case table: each line at every entry that makes its check or takes its step.
//!
//! While a call is made it is held to what the paper says: by the Rust's own answer, or by the number of the check that fails.

use super::doubles::{PIVOT_LIMIT, power_of_two};
use super::faults::sound;
use super::matrices::{self, Matrix};
use super::passes::{self, Size};
use super::polynomials::{self, Polynomial};
use super::random::Random;
use super::recordings::Recording;
use super::tables::{PRESENT, SECOND, Table};
use crate::answers::{Answer, doubles};
use crate::calls::{Call, Entry, Part};
use crate::checks::{COORDINATES, SAMPLES};
use crate::expected::{self, APPROACH, FALLBACK};
use crate::reference;
use crate::words::{Word, same};

/// The roots.
pub fn roots() -> Vec<f64> {
    let least = power_of_two(-1074);
    let lines = [(2.25, 1.5), (least, power_of_two(-537)), (-0.0, -0.0)];
    for (x, root) in lines {
        assert!(same(reference::sqrt(x), root), "the root of {x}");
    }
    lines.map(|(x, _)| x).into()
}

/// The Chebyshev sums of a single coefficient.
pub fn sums() -> Vec<Polynomial> {
    let lines = [
        (2, 0.5, (-0.5, 2.0)),
        (3, 0.5, (-1.0, 0.0)),
        (9, 1.0, (1.0, 81.0)),
    ];
    for (j, tau, sums) in lines {
        let Polynomial { coefficients, .. } = polynomials::single(j, tau);
        let found = reference::value_and_slope(&coefficients, tau);
        assert!(found == sums, "T{j} at {tau}");
    }
    lines.map(|(j, tau, _)| polynomials::single(j, tau)).into()
}

/// The matrix without an inverse and the one that is just accepted.
pub fn matrices() -> Vec<Matrix> {
    let refused = matrices::identity_without_row(4);
    assert!(reference::inverse(&refused).is_none(), "a row zeroed");
    let accepted = matrices::diagonal(PIVOT_LIMIT);
    assert!(reference::inverse(&accepted).is_some(), "1e-12");
    vec![refused, accepted]
}

/// Whether the answer to a call is as the paper says.
type Holds = dyn Fn(&Call, &Answer) -> bool;

/// A call, what the paper says of it, and whether an answer is so.
struct Line {
    says: String,
    call: Call,
    holds: Box<Holds>,
}

impl Line {
    /// A call of which the paper says this.
    fn new(
        says: impl Into<String>,
        call: Call,
        holds: impl Fn(&Call, &Answer) -> bool + 'static,
    ) -> Self {
        Line {
            says: says.into(),
            call,
            holds: Box::new(holds),
        }
    }

    /// A call that is refused by this number.
    fn refused(says: impl Into<String>, call: Call, number: u8) -> Self {
        Line::new(says, call, move |_, answer| answer.refusal == Some(number))
    }

    /// A call that is not refused.
    fn passes(says: impl Into<String>, call: Call) -> Self {
        Line::new(says, call, |_, answer| is_answered(answer))
    }

    /// A call that is answered by these results.
    fn gives(says: &str, call: Call, results: Vec<Word>) -> Self {
        Line::new(says, call, move |_, answer| answer.results == results)
    }
}

/// The lines of the table that take a call, by the entry; none for an entry that has nothing to do with it.
const LINES: [fn(Entry) -> Vec<Line>; 10] = [
    single_coefficients,
    window_starts,
    means,
    slopes,
    slant_range,
    centres,
    one_sample,
    overflowing_means,
    numbers_of_coordinates,
    numbers_of_samples,
];

/// The calls of an entry; what is expected of each is what the paper says.
pub fn calls(entry: Entry) -> Vec<Call> {
    let lines = LINES.iter().flat_map(|lines| lines(entry));
    let held = lines.map(|Line { says, call, holds }| {
        let answer = expected::answer(entry, &call);
        assert!(holds(&call, &answer), "{}: {says}", entry.name());
        call
    });
    held.collect()
}

/// Whether it is one of the two entries that fit.
fn fits(entry: Entry) -> bool {
    matches!(entry, Entry::FitSatellite | Entry::Pass)
}

/// Whether it answers without a refusal.
fn is_answered(answer: &Answer) -> bool {
    answer.refusal == Some(0)
}

/// A result that is a double; a NaN if it is refused.
fn double(answer: &Answer, k: usize) -> f64 {
    let bits = answer.results.get(k).map(|word| word.bits());
    bits.map_or(f64::NAN, f64::from_bits)
}

/// The count, which is the first whole number that the means, the fit and the pass answer.
fn count(answer: &Answer) -> Option<u64> {
    let mut wholes = answer.results.iter();
    let count = wholes.find(|word| matches!(word, Word::Whole(_)));
    count.map(|word| word.bits())
}

/// Chebyshev: a model of two seconds has tau change by one in a second; T2, T3 and T9 are its axes.
fn single_coefficients(entry: Entry) -> Vec<Line> {
    if entry != Entry::Evaluate {
        return Vec::new();
    }
    let mut model = [0.0; 32];
    model[1] = 2.0;
    for (axis, j) in [2, 3, 9].into_iter().enumerate() {
        model[2 + 10 * axis + j] = 1.0;
    }
    let at = |instant| Call {
        model,
        instant,
        ..Call::default()
    };
    let (middle, end) = (at(SECOND * 3 / 2), at(2 * SECOND));
    vec![
        Line::new("T2 and T3 at 0.5", middle, |_, answer| {
            let positions = answer.results[..2] == doubles(&[-0.5, -1.0]);
            positions && answer.results[3..5] == doubles(&[2.0, 0.0])
        }),
        Line::new("T9 at 1", end, |_, answer| {
            [double(answer, 2), double(answer, 5)] == [1.0, 81.0]
        }),
    ]
}

/// Start, 20 coordinates: the row at the instant, and where its window starts.
const STARTS: [(usize, usize); 4] = [(4, 0), (5, 1), (14, 10), (15, 10)];

/// The same for an instant between two rows, by other two rows a nanosecond apart, since a window that holds both has no inverse:
/// the row before the instant, the first of the close ones, and whether the window starts so that it does not hold both.
const BESIDE_CLOSE_ROWS: [(i64, usize, bool); 5] = [
    (4, 9, true),
    (5, 9, false),
    (5, 10, true),
    (14, 9, true),
    (15, 9, true),
];

/// Start: model and propagation answer by the window's ten rows alone; the other entries find the satellite where it is overhead, if the window there has an inverse.
fn window_starts(entry: Entry) -> Vec<Line> {
    match entry {
        Entry::GetChebyshevModel | Entry::PropagateEcef => STARTS
            .map(|(row, start)| on_a_row(entry, row, start))
            .into(),
        Entry::FindPcaTime | Entry::FitSatellite | Entry::Pass => BESIDE_CLOSE_ROWS
            .map(|(row, close, found)| beside_close_rows(entry, row, close, found))
            .into(),
        _ => Vec::new(),
    }
}

/// The instant of a row of 20: of all tables of ten of these rows only the one from the start on answers the same.
fn on_a_row(entry: Entry, row: usize, start: usize) -> Line {
    let mut call = sound(20, 1);
    call.instant = call.table.instants[row];
    let says = format!("the window of row {row} starts at {start}");
    Line::new(says, call, move |call, answer| {
        (0..=10).all(|other| {
            let same = *answer == expected::answer(entry, &ten_rows(call, other));
            same == (other == start)
        })
    })
}

/// The call with ten rows of its table alone.
fn ten_rows(call: &Call, start: usize) -> Call {
    let Table {
        instants,
        positions,
    } = &call.table;
    Call {
        table: Table {
            instants: instants[start..start + 10].to_vec(),
            positions: positions[3 * start..3 * (start + 10)].to_vec(),
        },
        ..call.clone()
    }
}

/// A satellite overhead half a minute after a row: it is found there to two seconds, or else, since the window has no inverse, half a minute away at least.
fn beside_close_rows(entry: Entry, row: i64, close: usize, found: bool) -> Line {
    let call = passes::after_a_row(&mut Random::new(100), row, close);
    let says = format!("half a minute after row {row}, row {close} a nanosecond before the next");
    Line::new(says, call, move |call, answer| {
        let away = match entry {
            Entry::FindPcaTime => seconds_to(call.instant, answer),
            _ => double(answer, 0),
        };
        if found {
            away.abs() <= 2.0
        } else {
            away.abs() >= 30.0
        }
    })
}

/// The seconds from an instant to the one that is answered.
fn seconds_to(instant: i64, answer: &Answer) -> f64 {
    let found = answer.results[0].bits() as i64;
    (found - instant) as f64 / SECOND as f64
}

/// A call with these samples and a table about 1970.
fn about_1970(instants: &[i64], frequencies: &[f64]) -> Call {
    let samples = instants.len();
    let mut call = sound(11, samples);
    let middle = PRESENT + 300 * SECOND;
    call.table.instants.iter_mut().for_each(|n| *n -= middle);
    call.recording = Recording {
        instants: instants.to_vec(),
        frequencies: frequencies.to_vec(),
    };
    call
}

/// Means, at both entries that take them.
fn means(entry: Entry) -> Vec<Line> {
    if !matches!(entry, Entry::DownsampleData | Entry::Pass) {
        return Vec::new();
    }
    let frequencies = [10.0, 20.0];
    let one = about_1970(&[5_000, 0], &frequencies);
    let two = about_1970(&[-1, 0], &frequencies);
    vec![
        Line::new("5,000 and 0 give 3,000 and 15", one, |call, answer| {
            count(answer) == Some(1) && first_means(call, answer, 1) == [(3_000, 15.0)]
        }),
        Line::new("-1 and 0 lie in two seconds", two, |call, answer| {
            let means = first_means(call, answer, 2);
            count(answer) == Some(2) && means == [(-1, 10.0), (0, 20.0)]
        }),
    ]
}

/// The first means in the areas.
fn first_means(call: &Call, answer: &Answer, count: usize) -> Vec<(i64, f64)> {
    let (instants, frequencies) = answer.areas.split_at(call.areas[0]);
    let means = instants.iter().zip(frequencies).take(count);
    means
        .map(|(n, f)| (n.bits() as i64, f64::from_bits(f.bits())))
        .collect()
}

/// Slope: of the measured approach, of the steepest slope, and of the means of a pass, where samples so close have one mean, and the middle one stands for the approach.
fn slopes(entry: Entry) -> Vec<Line> {
    let frequencies = [10.0, 5.0, 0.0];
    let apart = about_1970(&[0, SECOND, 2 * SECOND], &frequencies);
    let close = about_1970(&[0, 450_000, 900_000], &frequencies);
    let (falling, none) = ("10, 5, 0 Hz at 0, 1, 2 s", "0.9 ms apart");
    match entry {
        Entry::EstimateMeasuredPcaTime => vec![
            Line::gives(falling, apart, vec![Word::Whole(SECOND)]),
            Line::refused(none, close, 9),
        ],
        Entry::SteepestSlope => vec![
            Line::gives(falling, apart, doubles(&[-5.0])),
            Line::gives(none, close, doubles(&[0.0])),
        ],
        Entry::Pass => vec![
            Line::new(falling, apart, |_, answer| taken_about(answer, SECOND, 0)),
            Line::new(none, close, |_, answer| taken_about(answer, 450_000, 1)),
        ],
        _ => Vec::new(),
    }
}

/// Whether a report was taken about this instant, and says 1 or 0 for the fallback.
fn taken_about(answer: &Answer, instant: i64, fallback: i64) -> bool {
    let words = answer.results.get(APPROACH..=FALLBACK);
    words == Some(&[instant, fallback].map(Word::Whole))
}

/// Slant.
fn slant_range(entry: Entry) -> Vec<Line> {
    if entry != Entry::EstimateSlantRange {
        return Vec::new();
    }
    let call = Call {
        centre: 1e9,
        slope: -0.1,
        ..Call::default()
    };
    vec![Line::gives("a slope of -0.1", call, doubles(&[2e6]))]
}

/// Centre: in seconds, how late the clock is, and whether the candidates reach that.
///
/// It is late by the first or the last candidate about the centre, or about 0.0 and then out of reach of the centre: 5 s have no candidates there, 6 s have.
/// The centre is always a whole number of seconds, since the closest approach is looked for in such steps from the measured one: none lies between the two.
const CENTRES: [(i64, i64, bool); 8] = [
    (5, 20, true),
    (5, -15, false),
    (-5, -20, true),
    (-5, 15, false),
    (6, 21, true),
    (6, -15, true),
    (-6, -21, true),
    (-6, 15, true),
];

/// Centre, at the fit and at the pass, which measures its approach itself.
fn centres(entry: Entry) -> Vec<Line> {
    if !fits(entry) {
        return Vec::new();
    }
    let mut random = Random::new(101);
    let lines = CENTRES.map(|(centre, late, reached)| {
        let size = Size {
            rows: 20,
            samples: 12,
        };
        let call = passes::with_centre(&mut random, size, centre * SECOND, late * SECOND);
        let says = format!("a centre of {centre} s, the clock late by {late} s");
        Line::new(says, call, move |call, answer| {
            let named = centre_about(call, measured(entry, call)) == centre as f64;
            let others = reached || is_reached_about_zero(call, answer, late);
            named && is_found(answer, late) == reached && others
        })
    });
    lines.into()
}

/// Whether the fit finds how late the clock is, to a tenth of a millisecond.
fn is_found(answer: &Answer, late: i64) -> bool {
    is_answered(answer) && (double(answer, 0) - late as f64).abs() <= 1e-4
}

/// Whether the candidates about 0.0, if they were tried too, would give another answer: the fit whose centre is 0.0 finds how late the clock is, with a lesser RMSE.
fn is_reached_about_zero(call: &Call, answer: &Answer, late: i64) -> bool {
    let closest = passes::closest_to(&call.table, call.observer, call.instant);
    let about_zero = Call {
        instant: closest,
        ..call.clone()
    };
    let other = expected::answer(Entry::FitSatellite, &about_zero);
    centre_about(call, closest) == 0.0
        && is_found(&other, late)
        && double(&other, 2) < double(answer, 2)
}

/// The measured approach: of the fit the instant that it is given, of the pass what the Rust makes of its means.
fn measured(entry: Entry, call: &Call) -> i64 {
    if entry == Entry::FitSatellite {
        return call.instant;
    }
    let means = reference::means(&reference::samples(&call.recording));
    reference::nanoseconds(reference::measured(&means).instant)
}

/// The centre of the candidates of a fit about this measured approach, in seconds, by the Rust's own closest approach.
fn centre_about(call: &Call, measured: i64) -> f64 {
    let predicted = passes::closest_to(&call.table, call.observer, measured);
    let between = reference::instant(measured) - reference::instant(predicted);
    between.num_milliseconds() as f64 / 1000.0
}

/// One sample: the first candidate wins.
fn one_sample(entry: Entry) -> Vec<Line> {
    if !fits(entry) {
        return Vec::new();
    }
    let says = "one sample gives the centre less 15 s and an RMSE of 0";
    vec![Line::new(says, sound(20, 1), move |call, answer| {
        let first = centre_about(call, measured(entry, call)) - 15.0;
        let report = [double(answer, 0), double(answer, 2)];
        report == [first, 0.0] && count(answer) == Some(1)
    })]
}

/// Means of 1e300 and -1e300 Hz at instants within the table.
fn overflowing_means(entry: Entry) -> Vec<Line> {
    if !fits(entry) {
        return Vec::new();
    }
    let mut call = sound(10, 2);
    let start = call.table.instants[4];
    call.recording = Recording {
        instants: vec![start, start + SECOND],
        frequencies: vec![1e300, -1e300],
    };
    vec![Line::refused("1e300 and -1e300 Hz", call, 10)]
}

/// The least number of coordinates and one less, at every entry that takes a table; the other end is too long a line to be stored and is the judge's (see `faults`).
fn numbers_of_coordinates(entry: Entry) -> Vec<Line> {
    if !entry.takes(Part::Table) {
        return Vec::new();
    }
    let least = COORDINATES[0];
    let too_few = least - 1;
    vec![
        Line::refused(format!("{too_few} coordinates"), sound(too_few, 4), 1),
        Line::passes(format!("{least} coordinates"), sound(least, 4)),
    ]
}

/// The most samples and one more, at every entry that takes samples. Of the most the last one counts: without it the answer is another.
/// The areas for one more are short, so that the stored answer is; check 3 comes after check 2.
fn numbers_of_samples(entry: Entry) -> Vec<Line> {
    if !entry.takes(Part::Samples) {
        return Vec::new();
    }
    let [most, too_many] = [SAMPLES, SAMPLES + 1]
        .map(|samples| passes::eight_to_the_second(&mut Random::new(102), samples));
    let too_many = Call {
        areas: [3, 2],
        ..too_many
    };
    vec![
        Line::new(format!("{SAMPLES} samples"), most, move |call, answer| {
            let mut without_last = call.clone();
            without_last.recording.instants.pop();
            without_last.recording.frequencies.pop();
            is_answered(answer) && *answer != expected::answer(entry, &without_last)
        }),
        Line::refused(format!("{} samples", SAMPLES + 1), too_many, 2),
    ]
}
