//! A time stands where the leap seconds are meant.
use orbit::*;

pub fn table(file: &[u8], instants: &mut [Nanoseconds], positions: &mut [Position]) -> Result<usize, Refusal> {
    #[cfg(mended)]
    let ahead = LeapSeconds(18);
    #[cfg(not(mended))]
    let ahead = Seconds(18.0);
    read_sp3(file, *b"G05", ahead, instants, positions) // WRONG: expected `LeapSeconds`, found `Seconds`
}
