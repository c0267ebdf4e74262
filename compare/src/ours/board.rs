//! The fleet board.

use super::{MARKER, answer, marked_double};
use compare::answers::Answer;
use compare::boards::BoardEntry;
use compare::words::Word;
use std::mem::offset_of;

/// An entry as it lies in memory, with a name for its padding.
#[repr(C)]
pub struct Lent {
    satellite: u16,
    padding: [u8; 6],
    instant: i64,
    clock_offset: f64,
    frequency_offset: f64,
    rmse: f64,
}

// It lies as the C interface has it.
const _: () = assert!(size_of::<Lent>() == 40 && offset_of!(Lent, instant) == 8);

// A slice is a pointer and its length.
unsafe extern "C" {
    fn orbit_fleet_board(entries: *const Lent, entry_count: usize, clock_offset: *mut f64) -> u8;
}

/// The entries as they are lent, the padding of each filled by its own draw.
pub fn lent(entries: &[BoardEntry], mut padding: impl FnMut() -> u64) -> Vec<Lent> {
    let entry = |entry: &BoardEntry| {
        let [_, _, padding @ ..] = padding().to_le_bytes();
        Lent {
            satellite: entry.satellite,
            padding,
            instant: entry.instant,
            clock_offset: entry.clock_offset,
            frequency_offset: entry.frequency_offset,
            rmse: entry.rmse,
        }
    };
    entries.iter().map(entry).collect()
}

/// The refusal's number, 0 if there is none; then the clock offset is written.
pub fn write_offset(entries: &[Lent], clock_offset: &mut f64) -> u8 {
    // SAFETY: the pointer is to as many entries as its length says.
    unsafe { orbit_fleet_board(entries.as_ptr(), entries.len(), clock_offset) }
}

/// The answer to a call. Behind the entries lies one more, and the place of the result has others beside it.
pub fn offset(entries: &[BoardEntry], padding: impl FnMut() -> u64) -> Answer {
    let memory = lent(&[entries, &[behind(entries)]].concat(), padding);
    let mut places = [marked_double(); 3];
    // SAFETY: the first pointer is to as many entries as its length says, and more; the second to the middle one of the places.
    let refusal = unsafe {
        orbit_fleet_board(
            memory.as_ptr(),
            entries.len(),
            places.as_mut_ptr().wrapping_add(1),
        )
    };
    let [before, offset, after] = places;
    let beside = [before, after].map(f64::to_bits);
    assert!(beside == [MARKER; 2], "written beside the result");
    answer(refusal, vec![Word::Double(offset)])
}

/// An entry that must not be seen: it would supersede the last one of the list, and behind an even number of entries it is not finite.
fn behind(entries: &[BoardEntry]) -> BoardEntry {
    let finite = entries.len() % 2 == 1;
    BoardEntry {
        satellite: entries.last().map_or(0, |last| last.satellite),
        instant: i64::MAX,
        clock_offset: if finite { 1.0 } else { f64::NAN },
        frequency_offset: 0.0,
        rmse: f64::MIN,
    }
}
