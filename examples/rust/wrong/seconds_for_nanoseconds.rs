//! An instant is given in seconds.
use orbit::*;

pub fn motion(model: &ChebyshevModel) -> Result<Motion, Refusal> {
    #[cfg(mended)]
    let instant = Nanoseconds(1_750_000_740_000_000_000);
    #[cfg(not(mended))]
    let instant = Seconds(1_750_000_740.0);
    evaluate(model, instant) // WRONG: expected `Nanoseconds`, found `Seconds`
}
