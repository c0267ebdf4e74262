//! The ship clock's library for Rust: every entry of `include/orbit.h`, with the unit types and without `unsafe` for the caller.
//!
//! Each unit is a type, also inside slices: kilometres, hertz or a bare number do not compile where metres are meant.
//! Every function takes any numbers. One that can refuse answers a [`Refusal`], and then writes to no lent area (but for the
//! means of [`pass`] under [`Refusal::NoShiftFits`]).
//!
//! A position goes by a window of ten coordinates about its instant. The tolerance says which windows are even: where none of the
//! nine gaps is off their mean by more than the tolerance, the window is taken as exactly evenly spaced; else its own instants are
//! used. Give `Seconds(0.001)` for a file whose seller promises a millisecond. With [`EVEN_TOLERANCE`], which is document 01's 1.0 s
//! and was the only value before, a window whose gaps are up to a second off is taken as even, and a low satellite kilometres off
//! its track.

mod refusal;

pub use refusal::Refusal;

use std::mem::offset_of;

/// A length.
#[repr(C)]
#[derive(Clone, Copy, Debug, Default, PartialEq, PartialOrd)]
pub struct Metres(pub f64);

/// A time.
#[repr(C)]
#[derive(Clone, Copy, Debug, Default, PartialEq, PartialOrd)]
pub struct Seconds(pub f64);

/// A frequency.
#[repr(C)]
#[derive(Clone, Copy, Debug, Default, PartialEq, PartialOrd)]
pub struct Hertz(pub f64);

/// A count of nanoseconds; of an instant: since 1970-01-01, without leap seconds.
#[repr(C)]
#[derive(Clone, Copy, Debug, Default, PartialEq, Eq, PartialOrd, Ord)]
pub struct Nanoseconds(pub i64);

/// A count of leap seconds, by which GPS time is ahead of UTC: 18 since 2017.
#[repr(C)]
#[derive(Clone, Copy, Debug, Default, PartialEq, Eq, PartialOrd, Ord)]
pub struct LeapSeconds(pub i16);

/// A velocity.
#[repr(C)]
#[derive(Clone, Copy, Debug, Default, PartialEq, PartialOrd)]
pub struct MetresPerSecond(pub f64);

/// A slope of the frequency.
#[repr(transparent)]
#[derive(Clone, Copy, Debug, Default, PartialEq, PartialOrd)]
pub struct HertzPerSecond(pub f64);

/// The most coordinates that a table may have (refusal 1).
pub const MOST_COORDINATES: usize = 4096;

/// The most samples that a recording may have (refusal 2).
pub const MOST_SAMPLES: usize = 1312;

/// The most entries that a board may have (refusal 14).
pub const MOST_ENTRIES: usize = 64;

/// The tolerance of an even window in document 01: its gaps may be up to 1.0 s off their mean. No function uses it unless
/// it is given.
pub const EVEN_TOLERANCE: Seconds = Seconds(1.0);

/// x, y and z, earth-centred and earth-fixed.
pub type Position = [Metres; 3];

/// Ten rows of ten.
pub type Matrix = [[f64; 10]; 10];

/// A table of coordinates: its instants, strictly rising, and a position for each.
#[derive(Clone, Copy, Debug)]
pub struct Table<'a> {
    pub instants: &'a [Nanoseconds],
    pub positions: &'a [Position],
}

/// A recording: the instants of its samples, in any order, and a frequency for each.
#[derive(Clone, Copy, Debug)]
pub struct Recording<'a> {
    pub instants: &'a [Nanoseconds],
    pub frequencies: &'a [Hertz],
}

/// The two areas that are lent for the means of a recording, each at least as long as the recording.
#[derive(Debug)]
pub struct MeansArea<'a> {
    pub instants: &'a mut [Nanoseconds],
    pub frequencies: &'a mut [Hertz],
}

/// What a fit answers.
#[derive(Clone, Copy, Debug, PartialEq)]
pub struct Report {
    /// Above zero where the recorder's clock is ahead of the table's.
    pub clock_offset: Seconds,
    pub frequency_offset: Hertz,
    pub rmse: Hertz,
    /// Of the means in a pass, of the samples in a fit.
    pub count: u64,
    /// The instant that the clock offset was taken about, by the recorder's clock; in a fit the given one.
    pub approach: Nanoseconds,
    /// Whether that is the middle mean's, since no slope of the means is below zero; never in a fit.
    pub fallback: bool,
    /// How many of the means or samples lie before the table's first coordinate or after its last, once each is moved earlier by the
    /// clock offset, cut toward zero to whole microseconds. One without a position there (refusal 8) is counted if it lies outside,
    /// and not if it lies within. Where any lie outside, the clock offset goes by extrapolated positions and may be far off: take an
    /// orbit file that holds the whole pass.
    pub outside: u64,
}

/// The Chebyshev model of ten coordinates: their first time and their last, and ten coefficients of each axis.
#[repr(C)]
#[derive(Clone, Copy, Debug, Default, PartialEq)]
pub struct ChebyshevModel {
    pub t0: Seconds,
    pub t9: Seconds,
    pub cx: [Metres; 10],
    pub cy: [Metres; 10],
    pub cz: [Metres; 10],
}

/// Where a satellite is and how it moves.
#[repr(C)]
#[derive(Clone, Copy, Debug, Default, PartialEq)]
pub struct Motion {
    pub position: Position,
    pub velocity: [MetresPerSecond; 3],
}

/// Where an instant lies in respect of a table's coordinates, by the numbers of include/orbit.h. Outside the table a position is
/// extrapolated: the farther outside, the less it can be trusted.
#[derive(Clone, Copy, Debug, PartialEq, Eq)]
pub enum Place {
    /// Before the first coordinate.
    Before = 0,
    /// From the first coordinate to the last, both included.
    Within = 1,
    /// After the last coordinate.
    After = 2,
}

/// Where a satellite is by a table and how it moves, and where the instant of it lies.
#[derive(Clone, Copy, Debug, PartialEq)]
pub struct Propagation {
    pub motion: Motion,
    pub place: Place,
}

/// The instant of the closest approach, and where that instant lies.
#[derive(Clone, Copy, Debug, PartialEq, Eq)]
pub struct ClosestApproach {
    pub instant: Nanoseconds,
    pub place: Place,
}

/// An entry of the fleet board: what one boat has of a satellite. It is `orbit_entry` of include/orbit.h.
#[repr(C)]
#[derive(Clone, Copy, Debug, Default, PartialEq)]
pub struct Entry {
    /// Its number, the same on all boats.
    pub satellite: u16,
    /// The approach that the boat's clock offset was taken about.
    pub instant: Nanoseconds,
    pub clock_offset: Seconds,
    pub frequency_offset: Hertz,
    pub rmse: Hertz,
}

/// The three numbers of a report as the library writes them: `orbit_report` of include/orbit.h.
#[repr(C)]
#[derive(Default)]
struct Offsets {
    clock_offset: Seconds,
    frequency_offset: Hertz,
    rmse: Hertz,
}

/// All that the library writes of a report.
#[derive(Default)]
struct Fitted {
    offsets: Offsets,
    count: u64,
    approach: Nanoseconds,
    fallback: u8,
    outside: u64,
}

// The library reads and writes these as 32, 6 and 3 doubles, one after the other: there must be no padding.
const _: () = assert!(size_of::<ChebyshevModel>() == 256);
const _: () = assert!(size_of::<Motion>() == 48);
const _: () = assert!(size_of::<Offsets>() == 24);

// An entry has padding behind its satellite, which may hold anything, and then four numbers of eight bytes.
const _: () = assert!(size_of::<Entry>() == 40 && offset_of!(Entry, instant) == 8);

impl Report {
    fn of(fitted: Fitted) -> Self {
        Report {
            clock_offset: fitted.offsets.clock_offset,
            frequency_offset: fitted.offsets.frequency_offset,
            rmse: fitted.offsets.rmse,
            count: fitted.count,
            approach: fitted.approach,
            fallback: fitted.fallback != 0,
            outside: fitted.outside,
        }
    }
}

impl Place {
    /// The place of this number, which the library writes.
    fn numbered(number: u8) -> Self {
        let places = [Place::Before, Place::Within, Place::After];
        let found = places.into_iter().find(|&place| place as u8 == number);
        found.unwrap_or_else(|| unreachable!("the library has no place {number}"))
    }
}

impl Entry {
    /// The entry of a boat's report on this satellite.
    pub fn of(satellite: u16, report: &Report) -> Self {
        Entry {
            satellite,
            instant: report.approach,
            clock_offset: report.clock_offset,
            frequency_offset: report.frequency_offset,
            rmse: report.rmse,
        }
    }
}

// SAFETY: these are the signatures of include/orbit.h. A unit is the header's struct with one field, and a slope passes as its number
// does; a slice is a pointer and a count; a reference is a pointer that is never null. The functions without slices take any
// arguments, so they are safe.
unsafe extern "C" {
    safe fn orbit_sqrt(x: f64) -> f64;
    safe fn orbit_nearest(n: i64) -> f64;
    safe fn orbit_truncated(x: f64) -> i64;
    safe fn orbit_evaluate_chebyshev(c: &[f64; 10], tau: f64, value: &mut f64, slope: &mut f64);
    safe fn orbit_invert_matrix_10(rows: &Matrix, inverse: &mut Matrix) -> u8;
    safe fn orbit_evaluate(model: &ChebyshevModel, instant: Nanoseconds, out: &mut Motion) -> u8;
    safe fn orbit_estimate_slant_range(f0: Hertz, slope: HertzPerSecond) -> Metres;
    fn orbit_get_chebyshev_model(
        instants: *const Nanoseconds,
        instant_count: usize,
        positions: *const Metres,
        position_count: usize,
        instant: Nanoseconds,
        tolerance: Seconds,
        model: &mut ChebyshevModel,
    ) -> u8;
    fn orbit_propagate_ecef(
        instants: *const Nanoseconds,
        instant_count: usize,
        positions: *const Metres,
        position_count: usize,
        instant: Nanoseconds,
        tolerance: Seconds,
        out: &mut Motion,
        place: &mut u8,
    ) -> u8;
    fn orbit_find_pca_time(
        instants: *const Nanoseconds,
        instant_count: usize,
        positions: *const Metres,
        position_count: usize,
        ox: Metres,
        oy: Metres,
        oz: Metres,
        instant: Nanoseconds,
        tolerance: Seconds,
        found: &mut Nanoseconds,
        place: &mut u8,
    ) -> u8;
    fn orbit_downsample_data(
        instants: *const Nanoseconds,
        instant_count: usize,
        frequencies: *const Hertz,
        frequency_count: usize,
        mean_instants: *mut Nanoseconds,
        mean_instant_count: usize,
        mean_frequencies: *mut Hertz,
        mean_frequency_count: usize,
        count: &mut u64,
    ) -> u8;
    fn orbit_estimate_measured_pca_time(
        instants: *const Nanoseconds,
        instant_count: usize,
        frequencies: *const Hertz,
        frequency_count: usize,
        found: &mut Nanoseconds,
    ) -> u8;
    fn orbit_steepest_slope(
        instants: *const Nanoseconds,
        instant_count: usize,
        frequencies: *const Hertz,
        frequency_count: usize,
        slope: &mut HertzPerSecond,
    ) -> u8;
    fn orbit_fit_satellite(
        instants: *const Nanoseconds,
        instant_count: usize,
        positions: *const Metres,
        position_count: usize,
        samples: *const Nanoseconds,
        sample_count: usize,
        frequencies: *const Hertz,
        frequency_count: usize,
        ox: Metres,
        oy: Metres,
        oz: Metres,
        f0: Hertz,
        measured: Nanoseconds,
        tolerance: Seconds,
        report: &mut Offsets,
        count: &mut u64,
        approach: &mut Nanoseconds,
        fallback: &mut u8,
        outside: &mut u64,
    ) -> u8;
    fn orbit_pass(
        instants: *const Nanoseconds,
        instant_count: usize,
        positions: *const Metres,
        position_count: usize,
        samples: *const Nanoseconds,
        sample_count: usize,
        frequencies: *const Hertz,
        frequency_count: usize,
        ox: Metres,
        oy: Metres,
        oz: Metres,
        f0: Hertz,
        tolerance: Seconds,
        mean_instants: *mut Nanoseconds,
        mean_instant_count: usize,
        mean_frequencies: *mut Hertz,
        mean_frequency_count: usize,
        report: &mut Offsets,
        count: &mut u64,
        approach: &mut Nanoseconds,
        fallback: &mut u8,
        outside: &mut u64,
    ) -> u8;
    fn orbit_read_sp3(
        bytes: *const u8,
        byte_count: usize,
        satellite: &[u8; 3],
        leap_seconds: LeapSeconds,
        instants: *mut Nanoseconds,
        instant_count: usize,
        positions: *mut Metres,
        position_count: usize,
        count: &mut u64,
    ) -> u8;
    fn orbit_fleet_board(
        entries: *const Entry,
        entry_count: usize,
        clock_offset: &mut Seconds,
    ) -> u8;
}

/// The square root, correctly rounded. A zero gives itself, a negative number or NaN gives NaN, infinity infinity.
pub fn sqrt(x: f64) -> f64 {
    orbit_sqrt(x)
}

/// The double nearest n, ties to even.
pub fn nearest(n: i64) -> f64 {
    orbit_nearest(n)
}

/// x cut toward zero to a whole number; past the range the nearer end, 0 for NaN.
pub fn truncated(x: f64) -> i64 {
    orbit_truncated(x)
}

/// The sum of c\[j\] · Tj(tau), j from 0 to 9, and its slope for each unit of tau.
pub fn evaluate_chebyshev(c: &[f64; 10], tau: f64) -> (f64, f64) {
    let (mut value, mut slope) = (0.0, 0.0);
    orbit_evaluate_chebyshev(c, tau, &mut value, &mut slope);
    (value, slope)
}

/// The inverse. Refuses by 8.
pub fn invert_matrix_10(rows: &Matrix) -> Result<Matrix, Refusal> {
    let mut inverse = [[0.0; 10]; 10];
    let number = orbit_invert_matrix_10(rows, &mut inverse);
    Refusal::or(number, inverse)
}

/// The Chebyshev model of the ten coordinates about an instant. Refuses by 1, 4, 5, 6, 16, 8.
pub fn get_chebyshev_model(
    table: Table,
    instant: Nanoseconds,
    tolerance: Seconds,
) -> Result<ChebyshevModel, Refusal> {
    let (instants, positions) = (table.instants, table.positions.as_flattened());
    let mut model = ChebyshevModel::default();
    // SAFETY: each pointer is to as many numbers as the count after it says.
    let number = unsafe {
        orbit_get_chebyshev_model(
            instants.as_ptr(),
            instants.len(),
            positions.as_ptr(),
            positions.len(),
            instant,
            tolerance,
            &mut model,
        )
    };
    Refusal::or(number, model)
}

/// Position and velocity by such a model at an instant. Refuses by 4.
pub fn evaluate(model: &ChebyshevModel, instant: Nanoseconds) -> Result<Motion, Refusal> {
    let mut motion = Motion::default();
    let number = orbit_evaluate(model, instant, &mut motion);
    Refusal::or(number, motion)
}

/// Position and velocity by a table at an instant, and where the instant lies; outside the table they are extrapolated. Refuses by
/// 1, 4, 5, 6, 16, 8.
pub fn propagate_ecef(
    table: Table,
    instant: Nanoseconds,
    tolerance: Seconds,
) -> Result<Propagation, Refusal> {
    let (instants, positions) = (table.instants, table.positions.as_flattened());
    let (mut motion, mut place) = (Motion::default(), 0);
    // SAFETY: each pointer is to as many numbers as the count after it says.
    let number = unsafe {
        orbit_propagate_ecef(
            instants.as_ptr(),
            instants.len(),
            positions.as_ptr(),
            positions.len(),
            instant,
            tolerance,
            &mut motion,
            &mut place,
        )
    };
    let place = Place::numbered(place);
    Refusal::or(number, Propagation { motion, place })
}

/// The instant at which the satellite is closest to the observer, to the second, within 51 minutes of an instant, and where the
/// instant found lies. Refuses by 1, 4, 5, 6, 16.
pub fn find_pca_time(
    table: Table,
    [ox, oy, oz]: Position,
    instant: Nanoseconds,
    tolerance: Seconds,
) -> Result<ClosestApproach, Refusal> {
    let (instants, positions) = (table.instants, table.positions.as_flattened());
    let (mut found, mut place) = (Nanoseconds(0), 0);
    // SAFETY: each pointer is to as many numbers as the count after it says.
    let number = unsafe {
        orbit_find_pca_time(
            instants.as_ptr(),
            instants.len(),
            positions.as_ptr(),
            positions.len(),
            ox,
            oy,
            oz,
            instant,
            tolerance,
            &mut found,
            &mut place,
        )
    };
    let closest = ClosestApproach {
        instant: found,
        place: Place::numbered(place),
    };
    Refusal::or(number, closest)
}

/// The means of a recording, one for each second that holds a sample, seconds rising, at the front of the areas; their number.
/// The rest of each area stays. Refuses by 2, 3, 4.
pub fn downsample_data(recording: Recording, means: MeansArea) -> Result<u64, Refusal> {
    let (instants, frequencies) = (recording.instants, recording.frequencies);
    let mut count = 0;
    // SAFETY: each pointer is to as many numbers as the count after it says; nothing overlaps the lent areas.
    let number = unsafe {
        orbit_downsample_data(
            instants.as_ptr(),
            instants.len(),
            frequencies.as_ptr(),
            frequencies.len(),
            means.instants.as_mut_ptr(),
            means.instants.len(),
            means.frequencies.as_mut_ptr(),
            means.frequencies.len(),
            &mut count,
        )
    };
    Refusal::or(number, count)
}

/// The instant of the sample about which a recording's frequency falls fastest, the first of equals. Refuses by 2, 4, 9.
pub fn estimate_measured_pca_time(recording: Recording) -> Result<Nanoseconds, Refusal> {
    let (instants, frequencies) = (recording.instants, recording.frequencies);
    let mut found = Nanoseconds(0);
    // SAFETY: each pointer is to as many numbers as the count after it says.
    let number = unsafe {
        orbit_estimate_measured_pca_time(
            instants.as_ptr(),
            instants.len(),
            frequencies.as_ptr(),
            frequencies.len(),
            &mut found,
        )
    };
    Refusal::or(number, found)
}

/// The steepest slope of a recording's frequency that is at least −120 Hz/s; 0.0 where none is below zero. Refuses by 2, 4.
pub fn steepest_slope(recording: Recording) -> Result<HertzPerSecond, Refusal> {
    let (instants, frequencies) = (recording.instants, recording.frequencies);
    let mut slope = HertzPerSecond(0.0);
    // SAFETY: each pointer is to as many numbers as the count after it says.
    let number = unsafe {
        orbit_steepest_slope(
            instants.as_ptr(),
            instants.len(),
            frequencies.as_ptr(),
            frequencies.len(),
            &mut slope,
        )
    };
    Refusal::or(number, slope)
}

/// The distance to the satellite at its closest, from the centre frequency and the steepest slope;
/// 2,000,000 m where the slope's magnitude is at most 0.1 or NaN.
pub fn estimate_slant_range(f0: Hertz, slope: HertzPerSecond) -> Metres {
    orbit_estimate_slant_range(f0, slope)
}

/// The fit of a recording to a satellite, about the instant of its measured approach, which the report repeats. Refuses by 1, 2, 4,
/// 5, 6, 7, 16, 10.
pub fn fit_satellite(
    table: Table,
    recording: Recording,
    [ox, oy, oz]: Position,
    f0: Hertz,
    measured: Nanoseconds,
    tolerance: Seconds,
) -> Result<Report, Refusal> {
    let (instants, positions) = (table.instants, table.positions.as_flattened());
    let (samples, frequencies) = (recording.instants, recording.frequencies);
    let mut fitted = Fitted::default();
    // SAFETY: each pointer is to as many numbers as the count after it says.
    let number = unsafe {
        orbit_fit_satellite(
            instants.as_ptr(),
            instants.len(),
            positions.as_ptr(),
            positions.len(),
            samples.as_ptr(),
            samples.len(),
            frequencies.as_ptr(),
            frequencies.len(),
            ox,
            oy,
            oz,
            f0,
            measured,
            tolerance,
            &mut fitted.offsets,
            &mut fitted.count,
            &mut fitted.approach,
            &mut fitted.fallback,
            &mut fitted.outside,
        )
    };
    Refusal::or(number, Report::of(fitted))
}

/// The whole pass: the means of a recording, at the front of the areas, their measured approach or else the mean at index
/// count / 2, and the fit of the means; the report says which instant it was, and whether the latter. Refuses by 1, 2, 3, 4, 5,
/// 6, 7, 16, 10; under 10 the means stay written.
pub fn pass(
    table: Table,
    recording: Recording,
    [ox, oy, oz]: Position,
    f0: Hertz,
    tolerance: Seconds,
    means: MeansArea,
) -> Result<Report, Refusal> {
    let (instants, positions) = (table.instants, table.positions.as_flattened());
    let (samples, frequencies) = (recording.instants, recording.frequencies);
    let mut fitted = Fitted::default();
    // SAFETY: each pointer is to as many numbers as the count after it says; nothing overlaps the lent areas.
    let number = unsafe {
        orbit_pass(
            instants.as_ptr(),
            instants.len(),
            positions.as_ptr(),
            positions.len(),
            samples.as_ptr(),
            samples.len(),
            frequencies.as_ptr(),
            frequencies.len(),
            ox,
            oy,
            oz,
            f0,
            tolerance,
            means.instants.as_mut_ptr(),
            means.instants.len(),
            means.frequencies.as_mut_ptr(),
            means.frequencies.len(),
            &mut fitted.offsets,
            &mut fitted.count,
            &mut fitted.approach,
            &mut fitted.fallback,
            &mut fitted.outside,
        )
    };
    Refusal::or(number, Report::of(fitted))
}

/// The positions of one satellite in the bytes of an orbit file in SP3-c, in the file's order, at the front of the areas; their
/// number. The rest of each area stays. The satellite is its three bytes in the file, such as `*b"G05"`. A file in UTC gives its
/// own instants; one in GPS time gives them less the leap seconds. A position of three zeros is absent and left out.
/// Instants that fall or repeat are given as they stand, and so are more positions than [`MOST_COORDINATES`]: such a table is
/// refused where it is used. A file that was cut off behind a whole line is read as far as it goes. Refuses by 11, 12, 13.
pub fn read_sp3(
    bytes: &[u8],
    satellite: [u8; 3],
    leap_seconds: LeapSeconds,
    instants: &mut [Nanoseconds],
    positions: &mut [Position],
) -> Result<usize, Refusal> {
    let positions = positions.as_flattened_mut();
    let mut count = 0;
    // SAFETY: each pointer is to as many numbers as the count after it says; nothing overlaps the lent areas.
    let number = unsafe {
        orbit_read_sp3(
            bytes.as_ptr(),
            bytes.len(),
            &satellite,
            leap_seconds,
            instants.as_mut_ptr(),
            instants.len(),
            positions.as_mut_ptr(),
            positions.len(),
            &mut count,
        )
    };
    Refusal::or(number, count as usize)
}

/// The clock offset of a fleet board: the mean of the clock offsets of the entries that no other supersedes, one for each satellite,
/// summed in list order. Of the entries of one satellite the later instant supersedes; at equal instants the smaller RMSE; if that is
/// equal too, the one nearer the front. Any instant is taken. The mean is infinite where the sum, at any step, passes the range of a
/// double. Refuses by 14, 15.
pub fn fleet_board(entries: &[Entry]) -> Result<Seconds, Refusal> {
    let mut clock_offset = Seconds(0.0);
    // SAFETY: the pointer is to as many entries as the count after it says.
    let number = unsafe { orbit_fleet_board(entries.as_ptr(), entries.len(), &mut clock_offset) };
    Refusal::or(number, clock_offset)
}

#[cfg(test)]
mod tests {
    use super::Place;
    use std::panic::catch_unwind;

    #[test]
    fn a_place_for_three_numbers_alone() {
        let places: Vec<Place> = (0..3).map(Place::numbered).collect();
        assert_eq!(places, [Place::Before, Place::Within, Place::After]);
        for number in [3, u8::MAX] {
            assert!(catch_unwind(|| Place::numbered(number)).is_err());
        }
    }
}
