//! A report's frequency offset is kept as a time.
use orbit::*;

#[cfg(mended)]
type Kept = Hertz;
#[cfg(not(mended))]
type Kept = Seconds;

pub fn offset(report: &Report) -> Kept {
    report.frequency_offset // WRONG: expected `Seconds`, found `Hertz`
}
