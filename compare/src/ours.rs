//! Our side: the functions of the static library, with the signatures of its C interface.

#[cfg(feature = "approach")]
pub mod approach;
#[cfg(any(feature = "means", feature = "fit", feature = "sp3"))]
mod areas;
#[cfg(feature = "board")]
pub mod board;
#[cfg(any(feature = "orbit", feature = "fit"))]
mod byte;
#[cfg(feature = "fit")]
pub mod fit;
#[cfg(feature = "means")]
pub mod means;
#[cfg(feature = "orbit")]
pub mod orbit;
#[cfg(feature = "sp3")]
pub mod sp3;
// Not every group takes every unit.
#[allow(dead_code)]
mod units;

use compare::answers::Answer;
use compare::inputs::matrices::Matrix;
use compare::inputs::polynomials::Polynomial;
use compare::words::Word;

/// What each place that is lent for a result holds before a call: no function under comparison writes this.
pub const MARKER: u64 = 0x0123_4567_89ab_cdef;

/// The refusal's number of an inverse whose pivot is too small.
pub const PIVOT_TOO_SMALL: u8 = 8;

// Each reference is one plain pointer to all of its doubles; a matrix lies row after row.
unsafe extern "C" {
    safe fn orbit_sqrt(x: f64) -> f64;
    safe fn orbit_nearest(n: i64) -> f64;
    safe fn orbit_truncated(x: f64) -> i64;
    safe fn orbit_evaluate_chebyshev(c: &[f64; 10], tau: f64, value: &mut f64, slope: &mut f64);
    safe fn orbit_invert_matrix_10(rows: &Matrix, inverse: &mut Matrix) -> u8;
}

/// The square root.
pub fn sqrt(x: f64) -> f64 {
    orbit_sqrt(x)
}

/// The double nearest a whole number.
pub fn nearest(n: i64) -> f64 {
    orbit_nearest(n)
}

/// The whole number toward zero.
pub fn truncated(x: f64) -> i64 {
    orbit_truncated(x)
}

/// Value and slope of the sum of ten Chebyshev polynomials.
pub fn value_and_slope(polynomial: &Polynomial) -> (f64, f64) {
    let (mut value, mut slope) = (0.0, 0.0);
    orbit_evaluate_chebyshev(
        &polynomial.coefficients,
        polynomial.tau,
        &mut value,
        &mut slope,
    );
    (value, slope)
}

/// The refusal's number, 0 if there is none; then the inverse is written to the lent area.
pub fn invert(rows: &Matrix, inverse: &mut Matrix) -> u8 {
    orbit_invert_matrix_10(rows, inverse)
}

/// A place lent for a double.
fn marked_double() -> f64 {
    f64::from_bits(MARKER)
}

/// A place lent for a whole number.
fn marked_whole() -> i64 {
    MARKER as i64
}

/// Our answer from the refusal's number and the places lent for results; on a refusal they must be as they were.
fn answer(refusal: u8, places: Vec<Word>) -> Answer {
    let untouched = places.iter().all(|place| place.bits() == MARKER);
    if refusal != 0 && untouched {
        return Answer::refused(refusal);
    }
    Answer {
        refusal: Some(refusal),
        ..Answer::answered(places)
    }
}
