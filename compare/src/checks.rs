//! Checks 1 to 7 of the paper, with the limit of samples of request 2.2, and the tolerance's of request 2.7, written plainly, and the first of them that an
//! entry's inputs fail.

use crate::calls::{Call, Entry, Part};
use crate::inputs::integers::INSTANT_LIMIT;

/// The checks of an entry's inputs, in their order; 16 stands before 8.
pub const CHECKS: [u8; 8] = [1, 2, 3, 4, 5, 6, 7, 16];

/// The least and the greatest number of coordinates.
pub const COORDINATES: [usize; 2] = [10, 4096];

/// The greatest number of samples.
pub const SAMPLES: usize = 1312;

/// The greatest magnitude of a component, in metres.
pub const FARTHEST: f64 = 1e8;

/// A place whose three magnitudes are all under this is refused, in metres.
pub const NEAREST: f64 = 1e6;

/// The number of the first check that fails.
pub fn first_failing(entry: Entry, call: &Call) -> Option<u8> {
    let mut checks = CHECKS.into_iter();
    checks.find(|&number| fails(number, entry, call))
}

/// Whether a check fails for a part that the entry takes.
fn fails(number: u8, entry: Entry, call: &Call) -> bool {
    let mut parts = entry.parts().iter();
    parts.any(|&part| entry.makes(number, part) && part_fails(number, part, call))
}

/// Whether a check fails for one part.
fn part_fails(number: u8, part: Part, call: &Call) -> bool {
    let (table, recording) = (&call.table, &call.recording);
    match (number, part) {
        (1, Part::Table) => is_miscounted(table.instants.len(), table.positions.len()),
        (2, Part::Samples) => is_unsampled(recording.instants.len(), recording.frequencies.len()),
        (3, Part::Areas) => call.areas.iter().any(|&n| n < recording.instants.len()),
        (4, Part::Table) => table.instants.iter().any(|&n| is_beyond(n)),
        (4, Part::Samples) => recording.instants.iter().any(|&n| is_beyond(n)),
        (4, Part::Instant) => is_beyond(call.instant),
        (5, Part::Table) => table.instants.windows(2).any(|pair| pair[0] >= pair[1]),
        (6, Part::Table) => table.positions.chunks(3).any(is_misplaced),
        (6, Part::Observer) => is_misplaced(&call.observer),
        (7, Part::Samples) => recording.frequencies.iter().any(|f| !f.is_finite()),
        (7, Part::Centre) => !call.centre.is_finite() || call.centre <= 0.0,
        (16, Part::Tolerance) => !call.tolerance.is_finite() || call.tolerance < 0.0,
        _ => false,
    }
}

/// Too few or too many coordinates, or not three components for each.
fn is_miscounted(coordinates: usize, components: usize) -> bool {
    let [least, greatest] = COORDINATES;
    coordinates < least || coordinates > greatest || components != 3 * coordinates
}

/// No sample, too many, or not one frequency for each.
fn is_unsampled(samples: usize, frequencies: usize) -> bool {
    samples == 0 || samples > SAMPLES || frequencies != samples
}

/// An instant past either end.
fn is_beyond(instant: i64) -> bool {
    !(-INSTANT_LIMIT..=INSTANT_LIMIT).contains(&instant)
}

/// A component that is not finite or too great, or all three too small.
fn is_misplaced(place: &[f64]) -> bool {
    let too_far = |x: &f64| !x.is_finite() || x.abs() > FARTHEST;
    place.iter().any(too_far) || place.iter().all(|x| x.abs() < NEAREST)
}
