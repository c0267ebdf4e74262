//! A model's end time is set to a count of nanoseconds.
use orbit::*;

pub fn begin(model: &mut ChebyshevModel, first: Nanoseconds) {
    #[cfg(mended)]
    let t0 = Seconds(nearest(first.0) * 1e-9);
    #[cfg(not(mended))]
    let t0 = first;
    model.t0 = t0; // WRONG: expected `Seconds`, found `Nanoseconds`
}
