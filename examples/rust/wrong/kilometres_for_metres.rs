//! The observer is given in kilometres, as a bare number.
use orbit::*;

pub fn closest(table: Table, about: Nanoseconds, tolerance: Seconds) -> Result<ClosestApproach, Refusal> {
    #[cfg(mended)]
    let x = Metres(3_913_991.0);
    #[cfg(not(mended))]
    let x: f64 = 3_913.991;
    let [y, z] = [Metres(281_932.0), Metres(5_019_047.0)];
    find_pca_time(table, [x, y, z], about, tolerance) // WRONG: expected `Metres`, found `f64`
}
