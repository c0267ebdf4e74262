//! A recording is made of ranges in metres; its slice must hold hertz.
use orbit::*;

#[cfg(mended)]
type Unit = Hertz;
#[cfg(not(mended))]
type Unit = Metres;

pub fn slope(instants: &[Nanoseconds], numbers: &[Unit]) -> Result<HertzPerSecond, Refusal> {
    let frequencies = numbers;
    let recording = Recording { instants, frequencies }; // WRONG: expected `&[Hertz]`, found `&[Metres]`
    steepest_slope(recording)
}
