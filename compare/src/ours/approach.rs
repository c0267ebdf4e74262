//! What a recording says without a table: measured approach, steepest slope; and the slant range.

use super::units::{Hertz, Metres};
use super::{answer, marked_double, marked_whole};
use compare::answers::Answer;
use compare::calls::Call;
use compare::inputs::recordings::Recording;
use compare::words::Word;

// A slice is a pointer and its length.
unsafe extern "C" {
    fn orbit_estimate_measured_pca_time(
        instants: *const i64,
        instants_length: usize,
        frequencies: *const f64,
        frequencies_length: usize,
        instant: &mut i64,
    ) -> u8;
    fn orbit_steepest_slope(
        instants: *const i64,
        instants_length: usize,
        frequencies: *const f64,
        frequencies_length: usize,
        slope: &mut f64,
    ) -> u8;
    safe fn orbit_estimate_slant_range(f0: Hertz, slope: f64) -> Metres;
}

/// The refusal's number, 0 if there is none; then the instant of the measured approach is written.
pub fn write_approach(recording: &Recording, instant: &mut i64) -> u8 {
    let (instants, frequencies) = (&recording.instants, &recording.frequencies);
    // SAFETY: each pointer is to as many numbers as its length says.
    unsafe {
        orbit_estimate_measured_pca_time(
            instants.as_ptr(),
            instants.len(),
            frequencies.as_ptr(),
            frequencies.len(),
            instant,
        )
    }
}

/// The refusal's number, 0 if there is none; then the steepest slope is written.
pub fn write_slope(recording: &Recording, slope: &mut f64) -> u8 {
    let (instants, frequencies) = (&recording.instants, &recording.frequencies);
    // SAFETY: each pointer is to as many numbers as its length says.
    unsafe {
        orbit_steepest_slope(
            instants.as_ptr(),
            instants.len(),
            frequencies.as_ptr(),
            frequencies.len(),
            slope,
        )
    }
}

/// The slant range.
pub fn range(centre: f64, slope: f64) -> f64 {
    let Metres(range) = orbit_estimate_slant_range(Hertz(centre), slope);
    range
}

/// The answer of `estimate_measured_pca_time`.
pub fn approach(call: &Call) -> Answer {
    let mut instant = marked_whole();
    let refusal = write_approach(&call.recording, &mut instant);
    answer(refusal, vec![Word::Whole(instant)])
}

/// The answer of the steepest slope.
pub fn slope(call: &Call) -> Answer {
    let mut slope = marked_double();
    let refusal = write_slope(&call.recording, &mut slope);
    answer(refusal, vec![Word::Double(slope)])
}

/// The answer of `estimate_slant_range`.
pub fn slant_range(call: &Call) -> Answer {
    Answer::unrefusable(Word::Double(range(call.centre, call.slope)))
}
