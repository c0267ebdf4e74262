//! The tabulated orbit: model, evaluation, propagation, closest approach.

use super::byte::Byte;
use super::units::{Metres, Nanoseconds, Seconds};
use super::{answer, marked_double, marked_whole};
use compare::answers::{Answer, doubles};
use compare::calls::Call;
use compare::inputs::tables::Table;
use compare::words::Word;

// A slice is a pointer and its length; each reference is one plain pointer to all of its numbers, as the header's structs have them.
unsafe extern "C" {
    fn orbit_get_chebyshev_model(
        instants: *const i64,
        instants_length: usize,
        positions: *const f64,
        positions_length: usize,
        instant: Nanoseconds,
        tolerance: Seconds,
        model: &mut [f64; 32],
    ) -> u8;
    safe fn orbit_evaluate(model: &[f64; 32], instant: Nanoseconds, motion: &mut [f64; 6]) -> u8;
    fn orbit_propagate_ecef(
        instants: *const i64,
        instants_length: usize,
        positions: *const f64,
        positions_length: usize,
        instant: Nanoseconds,
        tolerance: Seconds,
        motion: &mut [f64; 6],
        place: &mut u8,
    ) -> u8;
    fn orbit_find_pca_time(
        instants: *const i64,
        instants_length: usize,
        positions: *const f64,
        positions_length: usize,
        x: Metres,
        y: Metres,
        z: Metres,
        instant: Nanoseconds,
        tolerance: Seconds,
        found: &mut i64,
        place: &mut u8,
    ) -> u8;
}

/// The refusal's number, 0 if there is none; then the model is written.
pub fn write_model(table: &Table, instant: i64, tolerance: f64, model: &mut [f64; 32]) -> u8 {
    let (instants, positions) = (&table.instants, &table.positions);
    // SAFETY: each pointer is to as many numbers as its length says.
    unsafe {
        orbit_get_chebyshev_model(
            instants.as_ptr(),
            instants.len(),
            positions.as_ptr(),
            positions.len(),
            Nanoseconds(instant),
            Seconds(tolerance),
            model,
        )
    }
}

/// The refusal's number, 0 if there is none; then position and velocity by a model are written.
pub fn write_evaluation(model: &[f64; 32], instant: i64, motion: &mut [f64; 6]) -> u8 {
    orbit_evaluate(model, Nanoseconds(instant), motion)
}

/// The refusal's number, 0 if there is none; then position and velocity by a table are written, and where the instant lies.
pub fn write_propagation(
    table: &Table,
    instant: i64,
    tolerance: f64,
    motion: &mut [f64; 6],
    place: &mut u8,
) -> u8 {
    let (instants, positions) = (&table.instants, &table.positions);
    // SAFETY: each pointer is to as many numbers as its length says.
    unsafe {
        orbit_propagate_ecef(
            instants.as_ptr(),
            instants.len(),
            positions.as_ptr(),
            positions.len(),
            Nanoseconds(instant),
            Seconds(tolerance),
            motion,
            place,
        )
    }
}

/// The refusal's number, 0 if there is none; then the instant of the closest approach is written, and where it lies.
pub fn write_closest(call: &Call, found: &mut i64, place: &mut u8) -> u8 {
    let (instants, positions) = (&call.table.instants, &call.table.positions);
    let [x, y, z] = call.observer.map(Metres);
    // SAFETY: each pointer is to as many numbers as its length says.
    unsafe {
        orbit_find_pca_time(
            instants.as_ptr(),
            instants.len(),
            positions.as_ptr(),
            positions.len(),
            x,
            y,
            z,
            Nanoseconds(call.instant),
            Seconds(call.tolerance),
            found,
            place,
        )
    }
}

/// The answer of `get_chebyshev_model`.
pub fn model(call: &Call) -> Answer {
    let mut model = [marked_double(); 32];
    let refusal = write_model(&call.table, call.instant, call.tolerance, &mut model);
    answer(refusal, doubles(&model))
}

/// The answer of `evaluate`.
pub fn evaluation(call: &Call) -> Answer {
    let mut motion = [marked_double(); 6];
    let refusal = write_evaluation(&call.model, call.instant, &mut motion);
    answer(refusal, doubles(&motion))
}

/// The answer of `propagate_ecef`.
pub fn propagation(call: &Call) -> Answer {
    let mut motion = [marked_double(); 6];
    let mut place = Byte::marked();
    let refusal = write_propagation(
        &call.table,
        call.instant,
        call.tolerance,
        &mut motion,
        place.lent(),
    );
    let mut words = doubles(&motion);
    words.push(Word::Whole(place.told()));
    answer(refusal, words)
}

/// The answer of `find_pca_time`.
pub fn closest(call: &Call) -> Answer {
    let mut found = marked_whole();
    let mut place = Byte::marked();
    let refusal = write_closest(call, &mut found, place.lent());
    answer(refusal, [found, place.told()].map(Word::Whole).into())
}
