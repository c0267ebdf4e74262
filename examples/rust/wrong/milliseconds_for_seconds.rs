//! The tolerance is given in milliseconds, as a bare number.
use orbit::*;

pub fn place(table: Table, instant: Nanoseconds) -> Result<Propagation, Refusal> {
    #[cfg(mended)]
    let tolerance = Seconds(0.001);
    #[cfg(not(mended))]
    let tolerance: f64 = 1.0;
    propagate_ecef(table, instant, tolerance) // WRONG: expected `Seconds`, found `f64`
}
