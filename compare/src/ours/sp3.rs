//! The reader of orbit files.

use super::areas::Areas;
use super::units::LeapSeconds;
use super::{answer, marked_whole};
use compare::answers::Answer;
use compare::files::FileCall;
use compare::words::Word;

/// What lies behind the bytes that are lent: it would go on with a number or end a line, and must not be seen.
const BEHIND: &[u8] = b"0000000.000000\nEOF\n";

// A slice is a pointer and its length.
unsafe extern "C" {
    fn orbit_read_sp3(
        bytes: *const u8,
        byte_count: usize,
        satellite: &[u8; 3],
        leap_seconds: LeapSeconds,
        instants: *mut i64,
        instant_count: usize,
        positions: *mut f64,
        position_count: usize,
        count: &mut u64,
    ) -> u8;
}

/// The refusal's number, 0 if there is none; then the records and their count are written.
pub fn write_records(
    bytes: &[u8],
    satellite: [u8; 3],
    leap_seconds: i16,
    areas: (&mut [i64], &mut [f64]),
    count: &mut u64,
) -> u8 {
    let (instants, positions) = areas;
    // SAFETY: each pointer is to as many numbers as its length says.
    unsafe {
        orbit_read_sp3(
            bytes.as_ptr(),
            bytes.len(),
            &satellite,
            LeapSeconds(leap_seconds),
            instants.as_mut_ptr(),
            instants.len(),
            positions.as_mut_ptr(),
            positions.len(),
            count,
        )
    }
}

/// The answer to a call.
pub fn records(call: &FileCall) -> Answer {
    let lent = [call.bytes.as_slice(), BEHIND].concat();
    let mut count = marked_whole() as u64;
    let mut areas = Areas::new(call.areas);
    let refusal = write_records(
        &lent[..call.bytes.len()],
        call.satellite,
        call.leap_seconds,
        areas.lent(),
        &mut count,
    );
    answer(refusal, vec![Word::Whole(count as i64)]).beside(areas.words())
}
