//! An instant is given as a bare number, which does not say its unit.
use orbit::*;

pub fn motion(model: &ChebyshevModel) -> Result<Motion, Refusal> {
    #[cfg(mended)]
    let instant = Nanoseconds(1_750_000_740_000_000_000);
    #[cfg(not(mended))]
    let instant: i64 = 1_750_000_740_000_000_000;
    evaluate(model, instant) // WRONG: expected `Nanoseconds`, found `i64`
}
