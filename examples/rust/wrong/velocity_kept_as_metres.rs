//! A satellite's velocity is kept as a length.
use orbit::*;

#[cfg(mended)]
type Kept = MetresPerSecond;
#[cfg(not(mended))]
type Kept = Metres;

pub fn along_x(motion: &Motion) -> Kept {
    motion.velocity[0] // WRONG: expected `Metres`, found `MetresPerSecond`
}
