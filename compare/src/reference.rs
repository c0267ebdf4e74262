//! The Rust side: its unchanged functions, sliced out of its source when this is built; and the same text in which the tolerance of an even window, and
//! nothing else, is another number.
//!
//! Each function below and in `reference/tables.rs` is one call from the driver, as each entry of our library is.

// The style of the sliced text is its author's.
#![allow(
    clippy::needless_range_loop,
    clippy::manual_memcpy,
    clippy::collapsible_if
)]

mod changed;

pub use changed::at as by_the_changed_text;

use crate::inputs::recordings::Recording;
use crate::inputs::tables::Table;
use chrono::{DateTime, NaiveDateTime, TimeZone, Utc};
use std::io;

include!(concat!(env!("OUT_DIR"), "/orbit_sliced.rs"));
include!("reference/tables.rs");

/// What newer releases of chrono offer and Debian's lacks; where chrono has it, chrono's own is called.
#[allow(dead_code)]
trait TimestampNanosOpt {
    /// The nanoseconds since 1970, if an i64 holds them.
    fn timestamp_nanos_opt(&self) -> Option<i64>;
}

impl TimestampNanosOpt for DateTime<Utc> {
    fn timestamp_nanos_opt(&self) -> Option<i64> {
        let seconds = i128::from(self.timestamp());
        let rest = i128::from(self.timestamp_subsec_nanos());
        i64::try_from(seconds * 1_000_000_000 + rest).ok()
    }
}

/// Another one.
#[allow(dead_code)]
trait FromNaiveUtcAndOffset {
    /// The instant of a date and time in UTC.
    fn from_naive_utc_and_offset(date_and_time: NaiveDateTime, offset: Utc) -> Self;
}

impl FromNaiveUtcAndOffset for DateTime<Utc> {
    fn from_naive_utc_and_offset(date_and_time: NaiveDateTime, offset: Utc) -> Self {
        offset.from_utc_datetime(&date_and_time)
    }
}

/// The hardware's square root.
#[inline(never)]
pub fn sqrt(x: f64) -> f64 {
    x.sqrt()
}

/// The double nearest a whole number, ties to even.
#[inline(never)]
pub fn nearest(n: i64) -> f64 {
    n as f64
}

/// The whole number toward zero; the nearer end past the range, 0 for a NaN.
#[inline(never)]
pub fn truncated(x: f64) -> i64 {
    x as i64
}

/// Value and slope of the sum of ten Chebyshev polynomials.
#[inline(never)]
pub fn value_and_slope(coefficients: &[f64; 10], tau: f64) -> (f64, f64) {
    evaluate_chebyshev(coefficients, tau)
}

/// The inverse, or nothing where a pivot is too small.
#[inline(never)]
pub fn inverse(rows: &[[f64; 10]; 10]) -> Option<[[f64; 10]; 10]> {
    invert_matrix_10(rows)
}

/// Samples as the Rust takes them.
pub type Samples = [(DateTime<Utc>, f64)];

/// Position and velocity.
pub type Motion = ([f64; 3], [f64; 3]);

/// Clock offset, frequency offset and RMSE.
pub type Report = (f64, f64, f64);

/// The tolerance of an even window in the unchanged text, in seconds.
pub const TOLERANCE: f64 = 1.0;

/// What is asked of a table at a tolerance: at the Rust's own the unchanged text decides, at any other the changed one.
pub fn at<A>(tolerance: f64, table: &Table, ask: impl FnOnce(&dyn TabulatedOrbit) -> A) -> A {
    if tolerance.to_bits() == TOLERANCE.to_bits() {
        ask(&orbit(table))
    } else {
        by_the_changed_text(tolerance, table, ask)
    }
}

/// A table as one of the two texts takes it, and what that text answers.
pub trait TabulatedOrbit {
    /// The 32 numbers of the model of the window about an instant, or nothing where it has no inverse.
    fn model(&self, instant: DateTime<Utc>) -> Option<[f64; 32]>;

    /// Position and velocity, or nothing where the window has no inverse.
    fn propagate(&self, instant: DateTime<Utc>) -> Option<Motion>;

    /// The instant of the closest approach about an instant.
    fn closest(&self, observer: [f64; 3], instant: DateTime<Utc>) -> Option<DateTime<Utc>>;

    /// The fit's report, or nothing where no candidate is usable.
    fn fit(
        &self,
        samples: &Samples,
        observer: [f64; 3],
        centre: f64,
        measured: DateTime<Utc>,
    ) -> Option<Report>;
}

/// Nanoseconds in a second.
const SECOND: i64 = 1_000_000_000;

/// The instant of a count of nanoseconds since 1970.
pub fn instant(n: i64) -> DateTime<Utc> {
    let (seconds, rest) = (n.div_euclid(SECOND), n.rem_euclid(SECOND));
    Utc.timestamp_opt(seconds, rest as u32).unwrap()
}

/// The count of nanoseconds since 1970 of an instant.
pub fn nanoseconds(instant: DateTime<Utc>) -> i64 {
    instant.timestamp_nanos_opt().expect("an i64 holds it")
}

/// A recording as the Rust takes it.
pub fn samples(recording: &Recording) -> Vec<(DateTime<Utc>, f64)> {
    let instants = recording.instants.iter().map(|&n| instant(n));
    instants
        .zip(recording.frequencies.iter().copied())
        .collect()
}

/// The Rust's model of its 32 numbers.
pub fn model_of(numbers: &[f64; 32]) -> ChebyshevOrbit {
    let rows = numbers[2..].as_chunks().0;
    ChebyshevOrbit {
        t0: numbers[0],
        t9: numbers[1],
        cx: rows[0],
        cy: rows[1],
        cz: rows[2],
    }
}

/// Position and velocity by a model.
#[inline(never)]
pub fn evaluate(model: &ChebyshevOrbit, instant: DateTime<Utc>) -> Option<Motion> {
    model.evaluate(instant)
}

/// The means, one for each second that holds a sample.
#[inline(never)]
pub fn means(samples: &Samples) -> Vec<(DateTime<Utc>, f64)> {
    downsample_data(samples)
}

/// The instant of the measured approach, or nothing where no slope is below zero.
#[inline(never)]
pub fn approach(samples: &Samples) -> Option<DateTime<Utc>> {
    estimate_measured_pca_time(samples)
}

/// The steepest slope of at least -120, or 0 where none is below zero.
#[inline(never)]
pub fn steepest_slope(samples: &Samples) -> f64 {
    min_slope(samples)
}

/// The slant range.
#[inline(never)]
pub fn slant_range(centre: f64, slope: f64) -> f64 {
    estimate_slant_range(centre, slope)
}

/// The instant that a fit is taken about, and whether it is the fallback.
pub struct Measured {
    pub instant: DateTime<Utc>,
    pub fallback: bool,
}

/// The measured approach of a pass, or else, as the fallback, its middle mean.
pub fn measured(means: &Samples) -> Measured {
    let found = estimate_measured_pca_time(means);
    Measured {
        instant: found.unwrap_or(means[means.len() / 2].0),
        fallback: found.is_none(),
    }
}

/// The means, then the fit on them about the measured approach.
#[inline(never)]
pub fn pass(
    orbit: &dyn TabulatedOrbit,
    samples: &Samples,
    observer: [f64; 3],
    centre: f64,
) -> (Vec<(DateTime<Utc>, f64)>, Option<Report>) {
    let means = downsample_data(samples);
    let report = orbit.fit(&means, observer, centre, measured(&means).instant);
    (means, report)
}

/// The orbits of all satellites of a file, in any order.
#[inline(never)]
pub fn orbits(bytes: &[u8]) -> io::Result<Vec<SatelliteOrbit>> {
    parse_sp3_file(bytes)
}
