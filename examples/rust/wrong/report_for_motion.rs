//! A position and a velocity are kept as a report.
use orbit::*;

#[cfg(mended)]
type Kept = Motion;
#[cfg(not(mended))]
type Kept = Report;

pub fn motion(model: &ChebyshevModel, instant: Nanoseconds) -> Result<Kept, Refusal> {
    evaluate(model, instant) // WRONG: expected `Result<Report, Refusal>`, found `Result<Motion, Refusal>`
}
