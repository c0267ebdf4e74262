//! A frequency stands where the observer's z is meant.
use orbit::*;

pub fn closest(table: Table, about: Nanoseconds, tolerance: Seconds) -> Result<ClosestApproach, Refusal> {
    let [x, y] = [Metres(3_913_991.0), Metres(281_932.0)];
    #[cfg(mended)]
    let z = Metres(5_019_047.0);
    #[cfg(not(mended))]
    let z = Hertz(401_650_000.0);
    find_pca_time(table, [x, y, z], about, tolerance) // WRONG: expected `Metres`, found `Hertz`
}
