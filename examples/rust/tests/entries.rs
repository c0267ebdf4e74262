//! Every entry of the wrapper is called, and every refusal comes out.

#[path = "../src/data.rs"]
mod data;

use data::{LEAP_SECONDS, ORBIT_FILE, SATELLITE, Sample, TOLERANCE};
use orbit::{
    ChebyshevModel, ClosestApproach, EVEN_TOLERANCE, Entry, Hertz, HertzPerSecond, LeapSeconds,
    MOST_COORDINATES, MOST_ENTRIES, MOST_SAMPLES, MeansArea, Metres, MetresPerSecond, Nanoseconds,
    Place, Position, Propagation, Recording, Refusal, Report, Seconds, Table,
};
use std::ops::Range;

const SECOND: i64 = 1_000_000_000;

/// The farthest instant from 1970 that check 4 lets pass.
const FARTHEST: i64 = 4_000_000_000_000_000_000;

/// The row of the table that lies 54 s before the closest approach; examples/data/make.py says so.
const MIDDLE_ROW: usize = 12;

/// Frequencies that fall, a second apart.
const FALLING: Recording = Recording {
    instants: &[Nanoseconds(0), Nanoseconds(SECOND), Nanoseconds(2 * SECOND)],
    frequencies: &[Hertz(10.0), Hertz(5.0), Hertz(0.0)],
};

/// The pass of some sample data, and its means.
fn pass(sample: &Sample) -> (Result<Report, Refusal>, Vec<Nanoseconds>, Vec<Hertz>) {
    pass_at(sample, TOLERANCE)
}

/// The same at another tolerance.
fn pass_at(
    sample: &Sample,
    tolerance: Seconds,
) -> (Result<Report, Refusal>, Vec<Nanoseconds>, Vec<Hertz>) {
    let count = sample.samples.len();
    let (mut instants, mut frequencies) = (vec![Nanoseconds(0); count], vec![Hertz(0.0); count]);
    let areas = MeansArea {
        instants: &mut instants,
        frequencies: &mut frequencies,
    };
    let answer = orbit::pass(
        sample.table(),
        sample.recording(),
        sample.observer,
        sample.centre_frequency,
        tolerance,
        areas,
    );
    (answer, instants, frequencies)
}

/// The fit of all the samples of some sample data about their measured approach.
fn fit(sample: &Sample) -> Result<Report, Refusal> {
    let recording = sample.recording();
    let measured = orbit::estimate_measured_pca_time(recording)?;
    let (table, f0) = (sample.table(), sample.centre_frequency);
    orbit::fit_satellite(table, recording, sample.observer, f0, measured, TOLERANCE)
}

/// The sample data with these coordinates of the table alone.
fn with_coordinates(rows: Range<usize>) -> Sample {
    let mut sample = Sample::load();
    sample.instants = sample.instants[rows.clone()].to_vec();
    sample.positions = sample.positions[rows].to_vec();
    sample
}

/// The instants of the table's first coordinate and of its last, in nanoseconds.
fn ends(sample: &Sample) -> [i64; 2] {
    [0, sample.instants.len() - 1].map(|row| sample.instants[row].0)
}

/// A report's clock offset as the fit moves by it: cut to whole microseconds, in nanoseconds.
fn shift(report: &Report) -> i64 {
    (report.clock_offset.0 * 1e6) as i64 * 1000
}

/// How many instants lie before the table's first coordinate or after its last, each moved earlier by so many nanoseconds.
fn outside(sample: &Sample, instants: &[Nanoseconds], earlier: i64) -> u64 {
    let [first, last] = ends(sample);
    let lies_outside = |t: &&Nanoseconds| t.0 - earlier < first || t.0 - earlier > last;
    instants.iter().filter(lies_outside).count() as u64
}

/// What the pass refuses by when the sample data are spoilt so.
fn refusal_of(spoil: impl Fn(&mut Sample)) -> Option<Refusal> {
    let mut sample = Sample::load();
    spoil(&mut sample);
    pass(&sample).0.err()
}

/// The coordinates of the satellite in the orbit file, and the second since 1970 of the first, in UTC.
const COORDINATES: usize = 24;
const FIRST_SECOND: i64 = 1_750_000_020;

/// Room for as many instants and positions.
const ROOM: (usize, usize) = (COORDINATES, COORDINATES);

/// A mark for the areas of a table: the orbit file holds neither.
const MARK: (Nanoseconds, Position) = (Nanoseconds(7), [Metres(7.0); 3]);

/// The orbit file, its first such text changed for another.
fn changed(from: &str, to: &str) -> Vec<u8> {
    let file = std::str::from_utf8(ORBIT_FILE).unwrap();
    assert!(file.contains(from), "{from}");
    file.replacen(from, to, 1).into_bytes()
}

/// What is read of a satellite into marked areas for so many instants and positions, and the areas afterwards.
fn read(
    file: &[u8],
    satellite: [u8; 3],
    leap_seconds: LeapSeconds,
    room: (usize, usize),
) -> (Result<usize, Refusal>, Vec<Nanoseconds>, Vec<Position>) {
    let (mut instants, mut positions) = (vec![MARK.0; room.0], vec![MARK.1; room.1]);
    let answer = orbit::read_sp3(file, satellite, leap_seconds, &mut instants, &mut positions);
    (answer, instants, positions)
}

/// The refusal of such a read, which writes nothing.
fn refusal_of_file(file: &[u8], satellite: [u8; 3], room: (usize, usize)) -> Refusal {
    let (answer, instants, positions) = read(file, satellite, LEAP_SECONDS, room);
    assert!(instants.iter().all(|&instant| instant == MARK.0));
    assert!(positions.iter().all(|&position| position == MARK.1));
    answer.unwrap_err()
}

/// An entry by its satellite, instant, RMSE and clock offset.
fn entry(satellite: u16, instant: i64, rmse: f64, clock_offset: f64) -> Entry {
    Entry {
        satellite,
        instant: Nanoseconds(instant),
        clock_offset: Seconds(clock_offset),
        frequency_offset: Hertz(100.0),
        rmse: Hertz(rmse),
    }
}

/// The clock offset of a board.
fn offset_of(entries: &[Entry]) -> f64 {
    orbit::fleet_board(entries).unwrap().0
}

/// So many entries, each of another satellite, with the clock offset 1 s.
fn all_different(count: usize) -> Vec<Entry> {
    (0..count).map(|k| entry(k as u16, 0, 0.5, 1.0)).collect()
}

fn identity() -> orbit::Matrix {
    let mut rows = [[0.0; 10]; 10];
    (0..10).for_each(|k| rows[k][k] = 1.0);
    rows
}

#[test]
fn numbers() {
    assert_eq!(orbit::sqrt(2.25), 1.5);
    assert_eq!(orbit::nearest((1 << 53) + 1), 9_007_199_254_740_992.0);
    assert_eq!(orbit::truncated(-1.9), -1);
    assert_eq!(orbit::truncated(f64::NAN), 0);
}

#[test]
fn chebyshev_sum() {
    let mut third = [0.0; 10];
    third[3] = 1.0;
    assert_eq!(orbit::evaluate_chebyshev(&third, 0.5), (-1.0, 0.0));
}

#[test]
fn inverse_row_after_row() {
    let (mut rows, mut inverse) = (identity(), identity());
    rows[0][3] = 2.0;
    inverse[0][3] = -2.0;
    assert_eq!(orbit::invert_matrix_10(&rows), Ok(inverse));
    rows[3][3] = 0.0;
    assert_eq!(orbit::invert_matrix_10(&rows), Err(Refusal::PivotTooSmall));
}

#[test]
fn position_and_velocity() {
    let sample = Sample::load();
    let instant = sample.instants[MIDDLE_ROW];
    let propagation = orbit::propagate_ecef(sample.table(), instant, TOLERANCE).unwrap();
    let motion = propagation.motion;
    let model = orbit::get_chebyshev_model(sample.table(), instant, TOLERANCE).unwrap();
    assert_eq!(orbit::evaluate(&model, instant), Ok(motion));
    let time = |row: usize| Seconds(orbit::nearest(sample.instants[row].0) * 1e-9);
    assert_eq!(
        (model.t0, model.t9),
        (time(MIDDLE_ROW - 4), time(MIDDLE_ROW + 5))
    );
    let expected = sample.positions[MIDDLE_ROW];
    for (Metres(found), Metres(row)) in motion.position.into_iter().zip(expected) {
        assert!((found - row).abs() < 1e-3);
    }
    let squares = motion.velocity.map(|MetresPerSecond(v)| v * v);
    let speed = orbit::sqrt(squares.iter().sum());
    assert!((7_200.0..7_400.0).contains(&speed));
}

#[test]
fn closest_approach() {
    let sample = Sample::load();
    let Nanoseconds(row) = sample.instants[MIDDLE_ROW];
    let found = orbit::find_pca_time(sample.table(), sample.observer, Nanoseconds(row), TOLERANCE);
    let expected = ClosestApproach {
        instant: Nanoseconds(row + 54 * SECOND),
        place: Place::Within,
    };
    assert_eq!(found, Ok(expected));
}

#[test]
fn place_of_a_propagation() {
    let sample = Sample::load();
    let [first, last] = ends(&sample);
    let places = [
        (-FARTHEST, Place::Before),
        (first - 1, Place::Before),
        (first, Place::Within),
        (first + 1, Place::Within),
        (last - 1, Place::Within),
        (last, Place::Within),
        (last + 1, Place::After),
        (FARTHEST, Place::After),
    ];
    for (nanoseconds, place) in places {
        let instant = Nanoseconds(nanoseconds);
        let propagation = orbit::propagate_ecef(sample.table(), instant, TOLERANCE).unwrap();
        assert_eq!(propagation.place, place, "{nanoseconds}");
        let model = orbit::get_chebyshev_model(sample.table(), instant, TOLERANCE).unwrap();
        assert_eq!(orbit::evaluate(&model, instant), Ok(propagation.motion));
    }
}

/// The observer is where the satellite is at the instant to be found, so that no other is nearer.
#[test]
fn place_of_the_closest_approach_that_is_found() {
    let sample = Sample::load();
    let [first, last] = ends(&sample);
    let minute = 60 * SECOND;
    let places = [
        (first - 1, first - 1, Place::Before),
        (first, first, Place::Within),
        (first + 1, first + 1, Place::Within),
        (last - 1, last - 1, Place::Within),
        (last, last, Place::Within),
        (last + 1, last + 1, Place::After),
        (first - minute, first, Place::Within),
        (first, first - minute, Place::Before),
        (last + minute, last, Place::Within),
        (last, last + minute, Place::After),
    ];
    for (about, nanoseconds, place) in places {
        let instant = Nanoseconds(nanoseconds);
        let there = orbit::propagate_ecef(sample.table(), instant, TOLERANCE).unwrap();
        let (table, observer) = (sample.table(), there.motion.position);
        let found = orbit::find_pca_time(table, observer, Nanoseconds(about), TOLERANCE);
        assert_eq!(found, Ok(ClosestApproach { instant, place }), "{about}");
    }
}

#[test]
fn means_at_the_front() {
    let recording = Recording {
        instants: &[Nanoseconds(5_000), Nanoseconds(0)],
        frequencies: &[Hertz(10.0), Hertz(20.0)],
    };
    let (mut instants, mut frequencies) = ([Nanoseconds(7); 3], [Hertz(7.0); 2]);
    let areas = MeansArea {
        instants: &mut instants,
        frequencies: &mut frequencies,
    };
    assert_eq!(orbit::downsample_data(recording, areas), Ok(1));
    assert_eq!(instants.map(|n| n.0), [3_000, 7, 7]);
    assert_eq!(frequencies.map(|f| f.0), [15.0, 7.0]);
}

#[test]
fn slope_and_range() {
    let approach = orbit::estimate_measured_pca_time(FALLING);
    assert_eq!(approach, Ok(Nanoseconds(SECOND)));
    assert_eq!(orbit::steepest_slope(FALLING), Ok(HertzPerSecond(-5.0)));
    let range = orbit::estimate_slant_range(Hertz(1e9), HertzPerSecond(-0.1));
    assert_eq!(range, Metres(2_000_000.0));
}

#[test]
fn pass_is_the_fit_of_the_means() {
    let sample = Sample::load();
    let (answer, instants, frequencies) = pass(&sample);
    let report = answer.unwrap();
    assert!((report.clock_offset.0 - sample.known.clock_offset.0).abs() < 0.005);
    assert!((report.frequency_offset.0 - sample.known.frequency_offset.0).abs() < 0.5);
    let means = Recording {
        instants: &instants[..report.count as usize],
        frequencies: &frequencies[..report.count as usize],
    };
    let measured = orbit::estimate_measured_pca_time(means).unwrap();
    assert_eq!((report.approach, report.fallback), (measured, false));
    let (table, f0) = (sample.table(), sample.centre_frequency);
    let fit = orbit::fit_satellite(table, means, sample.observer, f0, measured, TOLERANCE);
    assert_eq!(fit, Ok(report));
}

#[test]
fn middle_mean_where_nothing_falls() {
    let few = |count: usize| {
        let mut sample = Sample::load();
        sample.samples.truncate(count);
        sample.frequencies.truncate(count);
        sample
    };
    let mut rising = Sample::load();
    rising.frequencies.sort_by(|a, b| a.0.total_cmp(&b.0));
    let mut level = Sample::load();
    level.frequencies.fill(level.centre_frequency);
    for (sample, count) in [(few(1), 1), (few(5), 2), (rising, 160), (level, 160)] {
        let (answer, instants, _) = pass(&sample);
        let report = answer.unwrap();
        assert_eq!(report.count, count);
        let middle = instants[count as usize / 2];
        assert_eq!((report.approach, report.fallback), (middle, true));
    }
}

#[test]
fn fit_repeats_the_instant_that_it_is_given() {
    let sample = Sample::load();
    let (table, f0) = (sample.table(), sample.centre_frequency);
    let row = sample.instants[MIDDLE_ROW];
    for measured in [row, Nanoseconds(row.0 + 1), sample.samples[0]] {
        let fit = orbit::fit_satellite(
            table,
            sample.recording(),
            sample.observer,
            f0,
            measured,
            TOLERANCE,
        );
        let report = fit.unwrap();
        assert_eq!((report.approach, report.fallback), (measured, false));
    }
}

#[test]
fn means_outside_the_table() {
    let parts = [(0..24, 0), (0..13, 134), (13..24, 86), (0..11, 160)];
    for (rows, expected) in parts {
        let sample = with_coordinates(rows);
        let (answer, instants, _) = pass(&sample);
        let report = answer.unwrap();
        assert_eq!((report.count, report.outside), (160, expected));
        let means = &instants[..report.count as usize];
        assert_eq!(report.outside, outside(&sample, means, shift(&report)));
    }
}

#[test]
fn samples_outside_the_table() {
    let parts = [(0..24, 0), (0..13, 336), (13..24, 215), (0..11, 400)];
    for (rows, expected) in parts {
        let sample = with_coordinates(rows);
        let report = fit(&sample).unwrap();
        assert_eq!((report.count, report.outside), (400, expected));
        let expected = outside(&sample, &sample.samples, shift(&report));
        assert_eq!(report.outside, expected);
    }
}

#[test]
fn outside_on_both_sides() {
    let mut sample = Sample::load();
    let [first, last] = ends(&sample);
    let last_sample = sample.samples.len() - 1;
    sample.samples[0] = Nanoseconds(first - 1000 * SECOND);
    sample.samples[last_sample] = Nanoseconds(last + 1000 * SECOND);
    let reports = [fit(&sample), pass(&sample).0].map(Result::unwrap);
    assert_eq!(reports.map(|report| report.outside), [2, 2]);
}

/// The table's first two coordinates lie a nanosecond apart, so that about them there is no position: a sample is skipped before the table,
/// where it is counted, and within it, where it is not.
#[test]
fn outside_or_within_and_without_a_position() {
    for (seconds, expected) in [(-100, 1), (30, 0)] {
        let mut sample = Sample::load();
        let [first, _] = ends(&sample);
        sample.instants.insert(0, Nanoseconds(first - 1));
        sample.positions.insert(0, sample.positions[0]);
        sample.samples[0] = Nanoseconds(first + seconds * SECOND);
        for report in [fit(&sample), pass(&sample).0].map(Result::unwrap) {
            let moved = Nanoseconds(sample.samples[0].0 - shift(&report));
            let refused = orbit::propagate_ecef(sample.table(), moved, TOLERANCE);
            assert_eq!(refused, Err(Refusal::PivotTooSmall));
            assert_eq!(report.outside, expected, "{seconds}");
        }
    }
}

/// The first shift that is tried where the measured approach is the closest one. One sample alone fits under every shift equally well, so
/// this is the one reported.
const FIRST_SHIFT: Seconds = Seconds(-15.0);

/// One sample, heard 15 s before the instant that the fit moves it to; the observer is where the satellite is when it is heard.
#[test]
fn outside_by_a_nanosecond() {
    let mut sample = Sample::load();
    let [first, last] = ends(&sample);
    sample.frequencies.truncate(1);
    let moved_to = [
        (first - 1, 1),
        (first, 0),
        (first + 1, 0),
        (last - 1, 0),
        (last, 0),
        (last + 1, 1),
    ];
    for (nanoseconds, expected) in moved_to {
        let heard = Nanoseconds(nanoseconds - 15 * SECOND);
        let there = orbit::propagate_ecef(sample.table(), heard, TOLERANCE).unwrap();
        sample.observer = there.motion.position;
        sample.samples = vec![heard];
        let (table, f0) = (sample.table(), sample.centre_frequency);
        let fit = orbit::fit_satellite(
            table,
            sample.recording(),
            sample.observer,
            f0,
            heard,
            TOLERANCE,
        );
        for report in [fit, pass(&sample).0].map(Result::unwrap) {
            assert_eq!((report.clock_offset, report.count), (FIRST_SHIFT, 1));
            assert_eq!(report.outside, expected, "{nanoseconds}");
        }
    }
}

/// The frequency heard at the table's end, by examples/data/make.py.
const AT_THE_END: Hertz = Hertz(401_641_391.13);

/// The sample data heard so many seconds earlier, with one sample more so many nanoseconds after the table's last coordinate.
fn with_a_sample_at_the_end(earlier: i64, after: i64) -> Sample {
    let mut sample = Sample::load();
    let [_, last] = ends(&sample);
    for Nanoseconds(heard) in &mut sample.samples {
        *heard -= earlier * SECOND;
    }
    sample.samples.push(Nanoseconds(last + after));
    sample.frequencies.push(AT_THE_END);
    sample
}

/// Ways to make a clock offset nanoseconds that are wrong: cut to these, and by the nearest microsecond, the one below and the one above.
const WRONG_SHIFTS: [fn(f64) -> i64; 4] = [
    |offset| (offset * 1e9) as i64,
    |offset| (offset * 1e6).round() as i64 * 1000,
    |offset| (offset * 1e6).floor() as i64 * 1000,
    |offset| (offset * 1e6).ceil() as i64 * 1000,
];

/// The clock offset is −656,939.9999999994 microseconds in the first three rows and 2,343,050.0000000014 in the others, so that each wrong
/// shift counts otherwise in one of them.
#[test]
fn outside_by_the_offset_in_whole_microseconds() {
    let rows = [
        (3, -656_939_000, -1, 0, [1, 1, 1, 0]),
        (3, -656_939_000, 0, 0, [1, 1, 1, 0]),
        (3, -656_939_000, 1, 1, [1, 1, 1, 1]),
        (0, 2_343_050_000, 0, 0, [0, 0, 0, 0]),
        (0, 2_343_050_000, 1, 1, [1, 1, 1, 0]),
    ];
    for (earlier, cut, nanoseconds, expected, wrong) in rows {
        let sample = with_a_sample_at_the_end(earlier, cut + nanoseconds);
        let (answer, instants, frequencies) = pass(&sample);
        let report = answer.unwrap();
        let means = Recording {
            instants: &instants[..report.count as usize],
            frequencies: &frequencies[..report.count as usize],
        };
        assert_eq!((report.count, shift(&report)), (161, cut));
        assert_eq!(report.outside, expected, "{nanoseconds}");
        let counted =
            |shift: fn(f64) -> i64| outside(&sample, means.instants, shift(report.clock_offset.0));
        assert_eq!(WRONG_SHIFTS.map(counted), wrong, "{nanoseconds}");
        let (table, f0) = (sample.table(), sample.centre_frequency);
        let fit = orbit::fit_satellite(
            table,
            means,
            sample.observer,
            f0,
            report.approach,
            TOLERANCE,
        );
        assert_eq!(fit, Ok(report));
    }
}

/// The middle row's instant.
const MIDDLE: Nanoseconds = Nanoseconds((FIRST_SECOND + 60 * MIDDLE_ROW as i64) * SECOND);

/// The answers of the entries that take a tolerance; those about an instant are about the middle row's.
#[derive(Debug, PartialEq)]
struct Answers {
    model: Result<ChebyshevModel, Refusal>,
    propagation: Result<Propagation, Refusal>,
    closest: Result<ClosestApproach, Refusal>,
    fit: Result<Report, Refusal>,
    pass: (Result<Report, Refusal>, Vec<Nanoseconds>, Vec<Hertz>),
}

impl Answers {
    fn of(sample: &Sample, tolerance: Seconds) -> Self {
        let (table, recording) = (sample.table(), sample.recording());
        let (observer, f0) = (sample.observer, sample.centre_frequency);
        Answers {
            model: orbit::get_chebyshev_model(table, MIDDLE, tolerance),
            propagation: orbit::propagate_ecef(table, MIDDLE, tolerance),
            closest: orbit::find_pca_time(table, observer, MIDDLE, tolerance),
            fit: orbit::fit_satellite(table, recording, observer, f0, MIDDLE, tolerance),
            pass: pass_at(sample, tolerance),
        }
    }

    /// What each refuses by.
    fn refusals(&self) -> [Option<Refusal>; 5] {
        [
            self.model.err(),
            self.propagation.err(),
            self.closest.err(),
            self.fit.err(),
            self.pass.0.err(),
        ]
    }

    /// Whether the areas for the means are as they were lent.
    fn no_means(&self) -> bool {
        let (_, instants, frequencies) = &self.pass;
        instants.iter().all(|&instant| instant == Nanoseconds(0))
            && frequencies.iter().all(|&frequency| frequency == Hertz(0.0))
    }
}

/// The sample data with a table of the same track whose gaps grow by 0.05 s each: in every window they are up to 0.2 s off their mean.
fn with_growing_gaps() -> Sample {
    let mut sample = Sample::load();
    let earlier = |row: i64| row * (24 - row) * SECOND / 40;
    let rows = (0..).zip(&sample.instants);
    let instants: Vec<Nanoseconds> = rows
        .map(|(row, instant)| Nanoseconds(instant.0 - earlier(row)))
        .collect();
    let position = |&instant: &Nanoseconds| {
        let propagation = orbit::propagate_ecef(sample.table(), instant, TOLERANCE);
        propagation.unwrap().motion.position
    };
    sample.positions = instants.iter().map(position).collect();
    sample.instants = instants;
    sample
}

/// How far a table's position at an instant is from another, in metres.
fn off(table: Table, instant: Nanoseconds, tolerance: Seconds, position: Position) -> f64 {
    let propagation = orbit::propagate_ecef(table, instant, tolerance).unwrap();
    let model = orbit::get_chebyshev_model(table, instant, tolerance).unwrap();
    assert_eq!(orbit::evaluate(&model, instant), Ok(propagation.motion));
    let found = propagation.motion.position;
    let apart = [0, 1, 2].map(|axis| found[axis].0 - position[axis].0);
    orbit::sqrt(apart.iter().map(|x| x * x).sum())
}

/// The true positions are those of the orbit file, at its own instants. By their own instants all windows come within 0.03 m of them; taken
/// as even, those of the rows with four before and five after are 3,649 to 3,654 m off.
#[test]
fn uneven_windows_by_their_own_instants() {
    let (even, uneven) = (Sample::load(), with_growing_gaps());
    for (row, (&instant, &position)) in even.instants.iter().zip(&even.positions).enumerate() {
        assert!(off(uneven.table(), instant, TOLERANCE, position) < 0.03);
        assert!(off(even.table(), instant, TOLERANCE, position) < 0.03);
        if (4..=18).contains(&row) {
            let as_even = off(uneven.table(), instant, EVEN_TOLERANCE, position);
            assert!((3_649.0..3_654.0).contains(&as_even), "{row}: {as_even}");
        }
    }
}

/// Taken as even, the satellite is 0.48 s late: the closest approach is found a second later, and the clock offset is less by as much.
#[test]
fn approach_fit_and_pass_by_the_tolerance() {
    let sample = with_growing_gaps();
    let [fine, coarse] = [TOLERANCE, EVEN_TOLERANCE].map(|tolerance| {
        let (table, observer) = (sample.table(), sample.observer);
        let about = Nanoseconds(MIDDLE.0 + SECOND / 2);
        let closest = orbit::find_pca_time(table, observer, about, tolerance);
        let answers = Answers::of(&sample, tolerance);
        let reports = [answers.fit, answers.pass.0].map(Result::unwrap);
        let missed = |report: Report| report.clock_offset.0 - sample.known.clock_offset.0;
        (closest.unwrap().instant.0 - about.0, reports.map(missed))
    });
    assert_eq!((fine.0, coarse.0), (53 * SECOND, 54 * SECOND));
    assert!(fine.1.iter().all(|missed| missed.abs() < 0.005));
    assert!(coarse.1.iter().all(|missed| (missed + 0.48).abs() < 0.01));
}

/// How far the gaps of the window about the middle row are off their mean at most, as the library works it out.
fn farthest_gap(sample: &Sample) -> f64 {
    let seconds = |row: usize| orbit::nearest(sample.instants[row].0) * 1e-9;
    let first = MIDDLE_ROW - 4;
    let mean = (seconds(first + 9) - seconds(first)) / 9.0;
    let gaps = (first..first + 9).map(|row| seconds(row + 1) - seconds(row));
    gaps.map(|gap| (gap - mean).abs()).fold(0.0, f64::max)
}

#[test]
fn a_gap_off_by_the_tolerance_is_even_and_by_more_is_not() {
    let sample = with_growing_gaps();
    let farthest = farthest_gap(&sample);
    assert!((0.199_999..0.200_001).contains(&farthest));
    let model = |x| orbit::get_chebyshev_model(sample.table(), MIDDLE, Seconds(x)).unwrap();
    assert_eq!(model(farthest), model(EVEN_TOLERANCE.0));
    assert_eq!(model(farthest.next_down()), model(0.0));
    assert_ne!(model(0.0), model(EVEN_TOLERANCE.0));
    let motion = |x| orbit::propagate_ecef(sample.table(), MIDDLE, Seconds(x)).unwrap();
    assert_eq!(motion(farthest), motion(EVEN_TOLERANCE.0));
    assert_eq!(motion(farthest.next_down()), motion(0.0));
    assert_ne!(motion(0.0), motion(EVEN_TOLERANCE.0));
}

/// The least double above zero.
const LEAST: f64 = f64::from_bits(1);

#[test]
fn tolerances_not_finite_or_below_zero() {
    let tolerances = [
        f64::NAN,
        -f64::NAN,
        f64::INFINITY,
        f64::NEG_INFINITY,
        -LEAST,
        -0.001,
        f64::MIN,
    ];
    for sample in [Sample::load(), with_growing_gaps()] {
        for tolerance in tolerances {
            let answers = Answers::of(&sample, Seconds(tolerance));
            assert_eq!(answers.refusals(), [Some(Refusal::ToleranceUnusable); 5]);
            assert!(answers.no_means());
        }
    }
    assert_eq!(Refusal::ToleranceUnusable.number(), 16);
}

#[test]
fn any_other_tolerance_passes() {
    for sample in [Sample::load(), with_growing_gaps()] {
        let tolerances = [-0.0, 0.0, LEAST, f64::MAX];
        let all = tolerances.map(|tolerance| Answers::of(&sample, Seconds(tolerance)));
        for answers in &all {
            assert_eq!(answers.refusals(), [None; 5]);
            assert!(!answers.no_means());
        }
        assert_eq!(all[0], all[1]);
    }
}

/// Sample data spoilt so, and what the entries of [`Answers`] then refuse by at a tolerance that passes.
type Fault = (fn(&mut Sample), [Option<Refusal>; 5]);

/// Faults that are found before that of a tolerance, and two that are found behind it.
fn faults() -> [Fault; 9] {
    use Refusal::*;
    let of_all = |refusal| [Some(refusal); 5];
    let of_three = |refusal| [None, None, Some(refusal), Some(refusal), Some(refusal)];
    let of_two = |refusal| [None, None, None, Some(refusal), Some(refusal)];
    [
        (|s| s.instants.truncate(9), of_all(CoordinateCount)),
        (|s| s.frequencies.truncate(9), of_two(SampleCount)),
        (
            |s| s.instants[23] = Nanoseconds(i64::MAX),
            of_all(InstantBeyondLimit),
        ),
        (|s| s.instants.swap(3, 4), of_all(InstantsNotRising)),
        (
            |s| s.positions[5] = [Metres(0.0); 3],
            of_all(PositionBeyondLimits),
        ),
        (
            |s| s.observer = [Metres(0.0); 3],
            of_three(PositionBeyondLimits),
        ),
        (
            |s| s.centre_frequency = Hertz(0.0),
            of_two(FrequencyUnusable),
        ),
        (
            |s| s.instants[MIDDLE_ROW - 1] = Nanoseconds(MIDDLE.0 - 1),
            [Some(PivotTooSmall), Some(PivotTooSmall), None, None, None],
        ),
        (|s| s.frequencies[5] = Hertz(1e300), of_two(NoShiftFits)),
    ]
}

/// The check of the tolerance comes behind 7, and before 8 and 10. By a tolerance below zero every window is uneven, by NaN none.
#[test]
fn order_of_the_refusal_of_a_tolerance() {
    use Refusal::*;
    for (spoil, refusals) in faults() {
        let mut sample = Sample::load();
        spoil(&mut sample);
        assert_eq!(Answers::of(&sample, TOLERANCE).refusals(), refusals);
        let expected = refusals.map(|refusal| match refusal {
            None | Some(PivotTooSmall) | Some(NoShiftFits) => Some(ToleranceUnusable),
            before => before,
        });
        for tolerance in [f64::NAN, -LEAST] {
            let refused = Answers::of(&sample, Seconds(tolerance));
            assert_eq!(refused.refusals(), expected);
            assert!(refused.no_means());
        }
    }
    let sample = Sample::load();
    let short = MeansArea {
        instants: &mut [],
        frequencies: &mut [],
    };
    let (observer, f0) = (sample.observer, sample.centre_frequency);
    let (table, recording) = (sample.table(), sample.recording());
    let refused = orbit::pass(table, recording, observer, f0, Seconds(f64::NAN), short);
    assert_eq!(refused, Err(AreaTooShort));
}

#[test]
fn table_from_the_orbit_file() {
    let room = (COORDINATES + 2, COORDINATES + 1);
    let (answer, instants, positions) = read(ORBIT_FILE, SATELLITE, LEAP_SECONDS, room);
    assert_eq!(answer, Ok(COORDINATES));
    let minutes = 0..COORDINATES as i64;
    let expected = minutes.map(|k| Nanoseconds((FIRST_SECOND + 60 * k) * SECOND));
    assert!(instants[..COORDINATES].iter().copied().eq(expected));
    let numbers = |row: usize| positions[row].map(|component| component.0);
    assert_eq!(numbers(0), [5_664_825.0, -3_564_902.0, 1_761_099.0]);
    assert_eq!(numbers(23), [1_862_723.0, 4_000_047.0, 5_331_991.0]);
    assert_eq!(instants[COORDINATES..], [MARK.0; 2]);
    assert_eq!(positions[COORDINATES..], [MARK.1]);
}

#[test]
fn positions_of_the_satellite_alone() {
    let file = changed("5664.825000", "5664.825123");
    let (_, _, positions) = read(&file, SATELLITE, LEAP_SECONDS, ROOM);
    assert_eq!(positions[0][0], Metres(5_664_825.123));
    let (answer, _, others) = read(ORBIT_FILE, *b"L02", LEAP_SECONDS, ROOM);
    assert_eq!(answer, Ok(COORDINATES));
    assert!(others[0] != positions[0]);
    let file = changed("PL02 ", "PL02?");
    let answer = read(&file, SATELLITE, LEAP_SECONDS, ROOM).0;
    assert_eq!(answer, Ok(COORDINATES));
}

#[test]
fn three_zeros_are_left_out() {
    let file = changed(
        "  5664.825000  -3564.902000   1761.099000",
        "     0.000000     -0.000000      0.000000",
    );
    let (answer, instants, _) = read(&file, SATELLITE, LEAP_SECONDS, ROOM);
    assert_eq!(answer, Ok(COORDINATES - 1));
    assert_eq!(instants[0], Nanoseconds((FIRST_SECOND + 60) * SECOND));
}

#[test]
fn leap_seconds_are_taken_off_gps_time() {
    let written = FIRST_SECOND + i64::from(LEAP_SECONDS.0);
    let in_utc = changed("GPS", "UTC");
    for count in [0, 18, -1, i16::MAX, i16::MIN] {
        let first = |file| read(file, SATELLITE, LeapSeconds(count), ROOM).1[0];
        let lessened = written - i64::from(count);
        assert_eq!(first(ORBIT_FILE), Nanoseconds(lessened * SECOND));
        assert_eq!(first(&in_utc), Nanoseconds(written * SECOND));
    }
}

#[test]
fn files_that_are_not_by_sp3_c() {
    let files = [
        changed("#c", "#d"),
        changed("*  2025  6 15", "*  2025  6 31"),
        changed("*  2025", "*  2097"),
        changed("*  2025  6 15 15  7 18.00000000\n", ""),
        changed("18.00000000\nPL01", "18,00000000\nPL01"),
        changed("1761.099000", "1761,099000"),
        ORBIT_FILE[..ORBIT_FILE.len() - 150].to_vec(),
    ];
    for file in files {
        let refusal = refusal_of_file(&file, SATELLITE, ROOM);
        assert_eq!(
            (refusal, refusal.number()),
            (Refusal::OrbitFileUnreadable, 11)
        );
    }
}

#[test]
fn other_refusals_of_the_orbit_file() {
    let file = changed("GPS", "TAI");
    let refusal = refusal_of_file(&file, SATELLITE, ROOM);
    assert_eq!(refusal, Refusal::TimeSystemNotTaken);
    assert_eq!(refusal.number(), 12);
    let short = [
        (COORDINATES - 1, COORDINATES),
        (COORDINATES, COORDINATES - 1),
    ];
    let refused = [
        refusal_of_file(ORBIT_FILE, *b"L03", ROOM),
        refusal_of_file(ORBIT_FILE, SATELLITE, short[0]),
        refusal_of_file(ORBIT_FILE, SATELLITE, short[1]),
    ];
    assert_eq!(refused, [Refusal::NoPositionOrNoRoom; 3]);
    assert_eq!(refused[0].number(), 13);
}

#[test]
fn board_of_a_report() {
    let report = pass(&Sample::load()).0.unwrap();
    let own = Entry::of(7, &report);
    assert_eq!((own.satellite, own.instant), (7, report.approach));
    assert_eq!(own.clock_offset, report.clock_offset);
    assert_eq!(own.frequency_offset, report.frequency_offset);
    assert_eq!(own.rmse, report.rmse);
    assert_eq!(orbit::fleet_board(&[own]), Ok(report.clock_offset));
}

#[test]
fn one_entry_of_a_satellite_counts() {
    let now = FIRST_SECOND * SECOND;
    let later = [entry(1, now, 0.1, 1.0), entry(1, now + 1, 0.9, 2.0)];
    let smaller = [entry(2, 5, 0.9, 4.0), entry(2, 5, 0.1, 8.0)];
    let front = [entry(3, 5, -0.0, 16.0), entry(3, 5, 0.0, 32.0)];
    let ends = [
        entry(4, i64::MIN, 0.1, 64.0),
        entry(4, i64::MAX, 0.9, 128.0),
    ];
    let survivors = [(later, 2.0), (smaller, 8.0), (front, 16.0), (ends, 128.0)];
    for ([a, b], survivor) in survivors {
        assert_eq!(offset_of(&[a, b]), survivor);
    }
    assert_eq!(offset_of(&[front[1], front[0]]), 32.0);
    let all: Vec<Entry> = survivors.iter().flat_map(|(two, _)| *two).collect();
    assert_eq!(offset_of(&all), (2.0 + 8.0 + 16.0 + 128.0) / 4.0);
    let last = entry(u16::MAX, 0, 0.5, 2.0);
    assert_eq!(offset_of(&[all_different(1)[0], last]), 1.5);
}

#[test]
fn offsets_are_summed_in_list_order() {
    let board = |offsets: &[f64]| -> Vec<Entry> {
        let numbered = offsets.iter().zip(0..);
        numbered.map(|(&x, k)| entry(k, 0, 0.5, x)).collect()
    };
    assert_eq!(offset_of(&board(&[1e16, 1.0, -1e16])), 0.0);
    assert_eq!(offset_of(&board(&[1e16, -1e16, 1.0])), 1.0 / 3.0);
    assert_eq!(
        offset_of(&board(&[f64::MAX, -f64::MAX, f64::MAX])),
        f64::MAX / 3.0
    );
    assert_eq!(
        offset_of(&board(&[f64::MAX, f64::MAX, -f64::MAX])),
        f64::INFINITY
    );
    assert!(offset_of(&board(&[-0.0, -0.0])).is_sign_positive());
}

#[test]
fn the_most_entries_pass_and_one_more_is_refused() {
    assert_eq!(offset_of(&all_different(MOST_ENTRIES)), 1.0);
    let mut more = all_different(MOST_ENTRIES + 1);
    more[3].rmse = Hertz(f64::NAN);
    for entries in [&[], &more[..]] {
        let refusal = orbit::fleet_board(entries).unwrap_err();
        assert_eq!((refusal, refusal.number()), (Refusal::EntryCount, 14));
    }
}

#[test]
fn entries_that_are_not_finite() {
    let spoils: [fn(&mut Entry, f64); 3] = [
        |entry, x| entry.clock_offset = Seconds(x),
        |entry, x| entry.frequency_offset = Hertz(x),
        |entry, x| entry.rmse = Hertz(x),
    ];
    for spoil in spoils {
        for x in [f64::NAN, f64::INFINITY, f64::NEG_INFINITY] {
            for k in 0..3 {
                let mut board = [6, 5, 7].map(|instant| entry(1, instant, 0.5, 1.0));
                spoil(&mut board[k], x);
                let refusal = orbit::fleet_board(&board).unwrap_err();
                assert_eq!((refusal, refusal.number()), (Refusal::EntryNotFinite, 15));
            }
        }
    }
}

#[test]
fn refusals_of_the_pass() {
    use Refusal::*;
    let refused = [
        refusal_of(|s| s.instants.truncate(9)),
        refusal_of(|s| s.frequencies.truncate(9)),
        refusal_of(|s| s.samples[5] = Nanoseconds(i64::MAX)),
        refusal_of(|s| s.instants.swap(3, 4)),
        refusal_of(|s| s.observer = [Metres(3_913.991); 3]),
        refusal_of(|s| s.centre_frequency = Hertz(0.0)),
        refusal_of(|s| s.frequencies[5] = Hertz(1e300)),
        refusal_of(|_| {}),
    ];
    let expected = [
        CoordinateCount,
        SampleCount,
        InstantBeyondLimit,
        InstantsNotRising,
        PositionBeyondLimits,
        FrequencyUnusable,
        NoShiftFits,
    ];
    assert_eq!(refused[..7], expected.map(Some));
    assert_eq!(refused[7], None);
}

#[test]
fn other_refusals() {
    let short = MeansArea {
        instants: &mut [Nanoseconds(0); 3],
        frequencies: &mut [],
    };
    let refusal = orbit::downsample_data(FALLING, short).unwrap_err();
    assert_eq!((refusal, refusal.number()), (Refusal::AreaTooShort, 3));
    let rising = Recording {
        frequencies: &[Hertz(0.0), Hertz(1.0), Hertz(2.0)],
        ..FALLING
    };
    let refusal = orbit::estimate_measured_pca_time(rising).unwrap_err();
    assert_eq!((refusal, refusal.number()), (Refusal::NoApproach, 9));
    assert!(refusal.to_string().starts_with("refused by 9: no slope"));
}

/// What each entry that takes a recording refuses by where the sample data's is continued to so many samples.
fn refusals_of_samples(count: usize) -> [Option<Refusal>; 5] {
    let mut sample = Sample::load();
    let last = sample.samples.len() - 1;
    sample.samples.resize(count, sample.samples[last]);
    sample.frequencies.resize(count, sample.frequencies[last]);
    let areas = MeansArea {
        instants: &mut vec![Nanoseconds(0); count],
        frequencies: &mut vec![Hertz(0.0); count],
    };
    let recording = sample.recording();
    let (table, observer, f0) = (sample.table(), sample.observer, sample.centre_frequency);
    [
        orbit::downsample_data(recording, areas).err(),
        orbit::estimate_measured_pca_time(recording).err(),
        orbit::steepest_slope(recording).err(),
        orbit::fit_satellite(table, recording, observer, f0, sample.samples[0], TOLERANCE).err(),
        pass(&sample).0.err(),
    ]
}

#[test]
fn the_most_samples_pass_and_one_more_is_refused() {
    assert_eq!(refusals_of_samples(MOST_SAMPLES), [None; 5]);
    let refused = [Some(Refusal::SampleCount); 5];
    assert_eq!(refusals_of_samples(MOST_SAMPLES + 1), refused);
}

#[test]
fn the_most_coordinates_pass_and_one_more_is_refused() {
    let rows = MOST_COORDINATES as i64 + 1;
    let instants: Vec<Nanoseconds> = (0..rows).map(|k| Nanoseconds(k * SECOND)).collect();
    let positions = vec![[Metres(7e6); 3]; MOST_COORDINATES + 1];
    let propagated = |count: usize| {
        let table = Table {
            instants: &instants[..count],
            positions: &positions[..count],
        };
        orbit::propagate_ecef(table, Nanoseconds(0), TOLERANCE).err()
    };
    assert_eq!(propagated(MOST_COORDINATES), None);
    let refused = Some(Refusal::CoordinateCount);
    assert_eq!(propagated(MOST_COORDINATES + 1), refused);
}

#[test]
fn empty_slices_are_refused() {
    let nothing: [Position; 0] = [];
    let table = Table {
        instants: &[],
        positions: &nothing,
    };
    let refused = orbit::propagate_ecef(table, Nanoseconds(0), TOLERANCE);
    assert_eq!(refused, Err(Refusal::CoordinateCount));
    let recording = Recording {
        instants: &[],
        frequencies: &[],
    };
    assert_eq!(orbit::steepest_slope(recording), Err(Refusal::SampleCount));
    let refused = orbit::read_sp3(&[], SATELLITE, LEAP_SECONDS, &mut [], &mut []);
    assert_eq!(refused, Err(Refusal::OrbitFileUnreadable));
    let refused = orbit::read_sp3(ORBIT_FILE, SATELLITE, LEAP_SECONDS, &mut [], &mut []);
    assert_eq!(refused, Err(Refusal::NoPositionOrNoRoom));
}
