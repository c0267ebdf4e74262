//! The instant that a fit was taken about is kept as a time.
use orbit::*;

#[cfg(mended)]
type Kept = Nanoseconds;
#[cfg(not(mended))]
type Kept = Seconds;

pub fn taken_about(report: &Report) -> Kept {
    report.approach // WRONG: expected `Seconds`, found `Nanoseconds`
}
