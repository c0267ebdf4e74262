//! The clock offset of a board's entry is given without a unit.
use orbit::*;

pub fn correct(entry: &mut Entry, offset: f64) {
    #[cfg(mended)]
    let corrected = Seconds(offset);
    #[cfg(not(mended))]
    let corrected = offset;
    entry.clock_offset = corrected; // WRONG: expected `Seconds`, found `f64`
}
