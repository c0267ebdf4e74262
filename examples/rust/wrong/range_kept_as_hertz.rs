//! The answer is a length, and is kept as a frequency.
use orbit::*;

#[cfg(mended)]
type Kept = Metres;
#[cfg(not(mended))]
type Kept = Hertz;

pub fn range(f0: Hertz, slope: HertzPerSecond) -> Kept {
    estimate_slant_range(f0, slope) // WRONG: expected `Hertz`, found `Metres`
}
