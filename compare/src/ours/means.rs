//! The means by the second.

use super::areas::Areas;
use super::{answer, marked_whole};
use compare::answers::Answer;
use compare::calls::Call;
use compare::inputs::recordings::Recording;
use compare::words::Word;

// A slice is a pointer and its length.
unsafe extern "C" {
    fn orbit_downsample_data(
        instants: *const i64,
        instants_length: usize,
        frequencies: *const f64,
        frequencies_length: usize,
        mean_instants: *mut i64,
        mean_instants_length: usize,
        mean_frequencies: *mut f64,
        mean_frequencies_length: usize,
        count: &mut u64,
    ) -> u8;
}

/// The refusal's number, 0 if there is none; then the means and their count are written.
pub fn write_means(
    recording: &Recording,
    mean_instants: &mut [i64],
    mean_frequencies: &mut [f64],
    count: &mut u64,
) -> u8 {
    let (instants, frequencies) = (&recording.instants, &recording.frequencies);
    // SAFETY: each pointer is to as many numbers as its length says.
    unsafe {
        orbit_downsample_data(
            instants.as_ptr(),
            instants.len(),
            frequencies.as_ptr(),
            frequencies.len(),
            mean_instants.as_mut_ptr(),
            mean_instants.len(),
            mean_frequencies.as_mut_ptr(),
            mean_frequencies.len(),
            count,
        )
    }
}

/// The answer of `downsample_data`.
pub fn means(call: &Call) -> Answer {
    let mut count = marked_whole() as u64;
    let mut areas = Areas::new(call.areas);
    let (instants, frequencies) = areas.lent();
    let refusal = write_means(&call.recording, instants, frequencies, &mut count);
    answer(refusal, vec![Word::Whole(count as i64)]).beside(areas.words())
}
