//! The fleet board once more, plainly, by the words of document 02, request 2.5: one walk along the list keeps of each satellite the place of its best
//! entry so far, and then the kept places are sorted.
//!
//! It is what our board is compared with. It goes another way than our library, which asks of each entry whether any other supersedes it.

use crate::answers::Answer;
use crate::boards::BoardEntry;
use crate::words::Word;
use std::cmp::Ordering;
use std::collections::BTreeMap;

/// The greatest number of entries.
pub const ENTRIES: usize = 64;

/// The refusal of no entry, or of too many.
pub const MISCOUNTED: u8 = 14;

/// The refusal of an entry with a double that is not finite.
pub const NOT_FINITE: u8 = 15;

/// The answer to a call.
pub fn answer(entries: &[BoardEntry]) -> Answer {
    match clock_offset(entries) {
        Ok(offset) => Answer::answered(vec![Word::Double(offset)]),
        Err(number) => Answer::refused(number),
    }
}

/// The board's clock offset in seconds, or the refusal.
pub fn clock_offset(entries: &[BoardEntry]) -> Result<f64, u8> {
    if entries.is_empty() || entries.len() > ENTRIES {
        return Err(MISCOUNTED);
    }
    if !entries.iter().all(is_finite) {
        return Err(NOT_FINITE);
    }
    let places = survivors(entries).into_iter();
    Ok(mean(places.map(|place| entries[place].clock_offset)))
}

/// Whether all three doubles of an entry are finite.
pub fn is_finite(entry: &BoardEntry) -> bool {
    let doubles = [entry.clock_offset, entry.frequency_offset, entry.rmse];
    doubles.iter().all(|x| x.is_finite())
}

/// The places of the entries that survive, rising; the entries are finite.
pub fn survivors(entries: &[BoardEntry]) -> Vec<usize> {
    let mut best = BTreeMap::new();
    for (place, entry) in entries.iter().enumerate() {
        let kept = best.entry(entry.satellite).or_insert(place);
        if rank(entry, &entries[*kept]) == Ordering::Greater {
            *kept = place;
        }
    }
    let mut places: Vec<usize> = best.into_values().collect();
    places.sort_unstable();
    places
}

/// How two entries of one satellite rank without their places: greater is the later one, and at one instant that of the smaller RMSE.
fn rank(a: &BoardEntry, b: &BoardEntry) -> Ordering {
    let by_rmse = || b.rmse.partial_cmp(&a.rmse).expect("both are finite");
    a.instant.cmp(&b.instant).then_with(by_rmse)
}

/// The sum in this order, from 0.0, over the count.
pub fn mean(offsets: impl Iterator<Item = f64>) -> f64 {
    let (sum, count) = offsets.fold((0.0, 0), |(sum, count), x| (sum + x, count + 1));
    sum / f64::from(count)
}
