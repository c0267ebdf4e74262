//! A length stands where the centre frequency is meant.
use orbit::*;

pub fn range(slope: HertzPerSecond) -> Metres {
    #[cfg(mended)]
    let f0 = Hertz(401_650_000.0);
    #[cfg(not(mended))]
    let f0 = Metres(401_650_000.0);
    estimate_slant_range(f0, slope) // WRONG: expected `Hertz`, found `Metres`
}
