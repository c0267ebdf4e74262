//! The fit and the pass.

use super::areas::Areas;
use super::byte::Byte;
use super::units::{Hertz, Metres, Nanoseconds, Seconds};
use super::{answer, marked_double, marked_whole};
use compare::answers::{Answer, doubles};
use compare::calls::Call;
use compare::words::Word;

// A slice is a pointer and its length; a report is one plain pointer to its three numbers, as the header's struct has them.
unsafe extern "C" {
    fn orbit_fit_satellite(
        instants: *const i64,
        instants_length: usize,
        positions: *const f64,
        positions_length: usize,
        samples: *const i64,
        samples_length: usize,
        frequencies: *const f64,
        frequencies_length: usize,
        x: Metres,
        y: Metres,
        z: Metres,
        f0: Hertz,
        measured: Nanoseconds,
        tolerance: Seconds,
        report: &mut [f64; 3],
        count: &mut u64,
        approach: &mut i64,
        fallback: &mut u8,
        outside: &mut u64,
    ) -> u8;
    fn orbit_pass(
        instants: *const i64,
        instants_length: usize,
        positions: *const f64,
        positions_length: usize,
        samples: *const i64,
        samples_length: usize,
        frequencies: *const f64,
        frequencies_length: usize,
        x: Metres,
        y: Metres,
        z: Metres,
        f0: Hertz,
        tolerance: Seconds,
        mean_instants: *mut i64,
        mean_instants_length: usize,
        mean_frequencies: *mut f64,
        mean_frequencies_length: usize,
        report: &mut [f64; 3],
        count: &mut u64,
        approach: &mut i64,
        fallback: &mut u8,
        outside: &mut u64,
    ) -> u8;
}

/// The places lent for a report: its three numbers, its count, its instant, the yes or no, and how many lie outside the table.
pub struct Places {
    report: [f64; 3],
    count: u64,
    approach: i64,
    fallback: Byte,
    outside: u64,
}

impl Places {
    /// All hold the marker.
    pub fn marked() -> Self {
        Places {
            report: [marked_double(); 3],
            count: marked_whole() as u64,
            approach: marked_whole(),
            fallback: Byte::marked(),
            outside: marked_whole() as u64,
        }
    }

    /// Clock offset, frequency offset, RMSE, count, instant, 1 or 0 for the fallback, and how many lie outside the table.
    fn words(&self) -> Vec<Word> {
        let mut words = doubles(&self.report);
        let whole = [
            self.count as i64,
            self.approach,
            self.fallback.told(),
            self.outside as i64,
        ];
        words.extend(whole.map(Word::Whole));
        words
    }
}

/// The refusal's number, 0 if there is none; then the report of a fit is written.
pub fn write_fit(call: &Call, places: &mut Places) -> u8 {
    let (table, recording) = (&call.table, &call.recording);
    let [x, y, z] = call.observer.map(Metres);
    // SAFETY: each pointer is to as many numbers as its length says.
    unsafe {
        orbit_fit_satellite(
            table.instants.as_ptr(),
            table.instants.len(),
            table.positions.as_ptr(),
            table.positions.len(),
            recording.instants.as_ptr(),
            recording.instants.len(),
            recording.frequencies.as_ptr(),
            recording.frequencies.len(),
            x,
            y,
            z,
            Hertz(call.centre),
            Nanoseconds(call.instant),
            Seconds(call.tolerance),
            &mut places.report,
            &mut places.count,
            &mut places.approach,
            places.fallback.lent(),
            &mut places.outside,
        )
    }
}

/// The refusal's number, 0 if there is none; then the report of a pass is written, and the means at 10 too.
pub fn write_pass(
    call: &Call,
    mean_instants: &mut [i64],
    mean_frequencies: &mut [f64],
    places: &mut Places,
) -> u8 {
    let (table, recording) = (&call.table, &call.recording);
    let [x, y, z] = call.observer.map(Metres);
    // SAFETY: each pointer is to as many numbers as its length says.
    unsafe {
        orbit_pass(
            table.instants.as_ptr(),
            table.instants.len(),
            table.positions.as_ptr(),
            table.positions.len(),
            recording.instants.as_ptr(),
            recording.instants.len(),
            recording.frequencies.as_ptr(),
            recording.frequencies.len(),
            x,
            y,
            z,
            Hertz(call.centre),
            Seconds(call.tolerance),
            mean_instants.as_mut_ptr(),
            mean_instants.len(),
            mean_frequencies.as_mut_ptr(),
            mean_frequencies.len(),
            &mut places.report,
            &mut places.count,
            &mut places.approach,
            places.fallback.lent(),
            &mut places.outside,
        )
    }
}

/// The answer of `fit_satellite`.
pub fn fit(call: &Call) -> Answer {
    let mut places = Places::marked();
    let refusal = write_fit(call, &mut places);
    answer(refusal, places.words())
}

/// The answer of the pass.
pub fn pass(call: &Call) -> Answer {
    let mut places = Places::marked();
    let mut areas = Areas::new(call.areas);
    let (instants, frequencies) = areas.lent();
    let refusal = write_pass(call, instants, frequencies, &mut places);
    answer(refusal, places.words()).beside(areas.words())
}
