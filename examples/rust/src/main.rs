//! Runs one pass of a satellite from the sample data of examples/data and prints what the library answers; then shows an orbit file
//! that ends too early, a recording without an approach, a fleet board, and three refusals.
//! Prints the same lines as examples/c/clock.c. Exit status 0: all was as expected.

mod data;

use data::{Known, LEAP_SECONDS, ORBIT_FILE, SATELLITE, Sample, TOLERANCE};
use orbit::{
    Entry, Hertz, MOST_COORDINATES, MOST_SAMPLES, MeansArea, Metres, Nanoseconds, Place, Position,
    Propagation, Recording, Refusal, Report, Seconds,
};
use std::process::ExitCode;

/// Nanoseconds in a second.
const SECOND: i64 = 1_000_000_000;

/// How many means are printed, beside the last.
const MEANS_SHOWN: usize = 3;

/// Too few samples for an approach: they lie in two seconds.
const FEW_SAMPLES: usize = 5;

/// Too few coordinates for the pass: in the sample data they end during it.
const EARLY_COORDINATES: usize = 13;

/// How many entries the board has.
const ENTRIES: usize = 4;

/// The number of the pass's satellite on the board, and of another.
const OWN_NUMBER: u16 = 1;
const OTHER_NUMBER: u16 = 2;

/// The clock offset of the other satellite's entry that none supersedes; it is made up.
const OTHER_OFFSET: Seconds = Seconds(2.36017);

/// A mark for the lent areas: no pass of the sample data writes these.
const MARK: (Nanoseconds, Hertz) = (Nanoseconds(-1), Hertz(-1.0));

/// The same for the areas of a table.
const MARKED_TABLE: (
    [Nanoseconds; MOST_COORDINATES],
    [Position; MOST_COORDINATES],
) = (
    [Nanoseconds(-1); MOST_COORDINATES],
    [[Metres(-1.0); 3]; MOST_COORDINATES],
);

/// What is lent for the means of the pass.
struct Areas {
    instants: Vec<Nanoseconds>,
    frequencies: Vec<Hertz>,
}

impl Areas {
    /// As long as any recording may be, since there may be as many means; all marked.
    fn new() -> Self {
        Areas {
            instants: vec![MARK.0; MOST_SAMPLES],
            frequencies: vec![MARK.1; MOST_SAMPLES],
        }
    }

    fn lent(&mut self) -> MeansArea<'_> {
        MeansArea {
            instants: &mut self.instants,
            frequencies: &mut self.frequencies,
        }
    }

    /// The means, as a recording of their own.
    fn means(&self, report: &Report) -> Recording<'_> {
        let count = report.count as usize;
        Recording {
            instants: &self.instants[..count],
            frequencies: &self.frequencies[..count],
        }
    }

    fn untouched(&self) -> bool {
        let marked = self.instants.iter().all(|&instant| instant == MARK.0);
        marked
            && self
                .frequencies
                .iter()
                .all(|&frequency| frequency == MARK.1)
    }
}

fn main() -> ExitCode {
    let expected = show_all(Sample::load()).unwrap_or_else(|refusal| {
        print_refusal(refusal);
        false
    });
    if expected {
        ExitCode::SUCCESS
    } else {
        ExitCode::FAILURE
    }
}

/// Everything; whether all was as expected. It ends where a call is refused that should not be.
fn show_all(sample: Sample) -> Result<bool, Refusal> {
    let (report, found) = show_pass(&sample)?;
    let board = board_of(&report);
    show_early_end(&sample, &report)?;
    let answered = found & show_few_samples(&sample)? & show_board(&board)?;
    let refused = show_kilometres(sample) & show_commas() & show_board_refused(board);
    Ok(answered & refused)
}

/// The pass of the sample data: its report, and whether it found the offsets that went into them.
fn show_pass(sample: &Sample) -> Result<(Report, bool), Refusal> {
    let (coordinates, samples) = (sample.instants.len(), sample.samples.len());
    println!(
        "A pass: {samples} samples, centre frequency {:.0} Hz",
        sample.centre_frequency.0
    );
    let satellite = SATELLITE.escape_ascii();
    println!("table             {coordinates} coordinates of {satellite} from table.sp3");
    println!(
        "tolerance         {} s: ten coordinates with a gap farther off the mean gap are taken by their own instants",
        TOLERANCE.0
    );
    let mut areas = Areas::new();
    let report = run_pass(sample, sample.recording(), &mut areas)?;
    let means = areas.means(&report);
    print_report(&report);
    print_places(sample, &report, means)?;
    print_means(means);
    print_slope_and_range(sample.centre_frequency, means)?;
    let found = print_known(&sample.known, &report);
    Ok((report, found))
}

/// Whether the table's first coordinates end during the pass that was reported, and others follow.
fn ends_early(sample: &Sample, report: &Report) -> bool {
    let (first, last) = (sample.samples[0], sample.samples[sample.samples.len() - 1]);
    let heard = moved(first, report)..moved(last, report);
    sample.instants.len() > EARLY_COORDINATES
        && heard.contains(&sample.instants[EARLY_COORDINATES - 1])
}

/// The same pass with an orbit file that ends during it: positions after its end are extrapolated, the clock offset is off, and the
/// report warns. It is left out where the table cannot be cut so.
fn show_early_end(sample: &Sample, report: &Report) -> Result<(), Refusal> {
    if !ends_early(sample, report) {
        return Ok(());
    }
    println!(
        "\nThe same pass, an orbit file that ends during it: its first {EARLY_COORDINATES} coordinates alone"
    );
    let mut shorter = Sample::load();
    shorter.instants.truncate(EARLY_COORDINATES);
    shorter.positions.truncate(EARLY_COORDINATES);
    let mut areas = Areas::new();
    let report = run_pass(&shorter, shorter.recording(), &mut areas)?;
    print_report(&report);
    print_places(&shorter, &report, areas.means(&report))
}

/// The pass of the first few samples shows no approach; whether it was taken about the middle mean.
fn show_few_samples(sample: &Sample) -> Result<bool, Refusal> {
    println!("\nThe same pass, its first {FEW_SAMPLES} samples alone");
    let few = Recording {
        instants: &sample.samples[..FEW_SAMPLES],
        frequencies: &sample.frequencies[..FEW_SAMPLES],
    };
    let mut areas = Areas::new();
    let report = run_pass(sample, few, &mut areas)?;
    print_count_and_approach(&report);
    print_outside(&report);
    let middle = areas.means(&report).instants[report.count as usize / 2];
    Ok(report.fallback && report.approach == middle)
}

/// The board's entries: that of the pass, and three that are made up. Of these the first is of the same satellite and an hour older,
/// and the others are of another satellite, at one instant, so that the last supersedes by its RMSE.
fn board_of(report: &Report) -> [Entry; ENTRIES] {
    let made_up = |satellite, seconds: i64, clock_offset, rmse| Entry {
        satellite,
        instant: Nanoseconds(report.approach.0 + seconds * SECOND),
        clock_offset,
        frequency_offset: Hertz(100.0),
        rmse,
    };
    [
        Entry::of(OWN_NUMBER, report),
        made_up(OWN_NUMBER, -3600, Seconds(9.0), Hertz(0.1)),
        made_up(OTHER_NUMBER, 90, Seconds(9.0), Hertz(0.5)),
        made_up(OTHER_NUMBER, 90, OTHER_OFFSET, Hertz(0.4)),
    ]
}

/// The clock offset of the board; whether it is the mean of the pass's and of the other satellite's.
fn show_board(board: &[Entry]) -> Result<bool, Refusal> {
    println!(
        "\nA fleet board of {} entries: that of the pass, and {} that are made up",
        board.len(),
        board.len() - 1
    );
    let Seconds(offset) = orbit::fleet_board(board)?;
    println!("clock offset      {offset:.5} s, the mean of one entry for each satellite");
    let mean = (board[0].clock_offset.0 + OTHER_OFFSET.0) / 2.0;
    Ok((offset - mean).abs() <= 1e-9)
}

/// The whole pass of a recording; the means at the front of the areas.
fn run_pass(sample: &Sample, recording: Recording, areas: &mut Areas) -> Result<Report, Refusal> {
    orbit::pass(
        sample.table(),
        recording,
        sample.observer,
        sample.centre_frequency,
        TOLERANCE,
        areas.lent(),
    )
}

fn print_report(report: &Report) {
    let Seconds(clock_offset) = report.clock_offset;
    println!("clock offset      {clock_offset:.5} s (above zero: the recorder's clock is ahead)");
    println!("frequency offset  {:.3} Hz", report.frequency_offset.0);
    println!("RMSE              {:.3} Hz", report.rmse.0);
    print_count_and_approach(report);
    print_outside(report);
}

/// How many means there are, and the instant that the clock offset was taken about.
fn print_count_and_approach(report: &Report) {
    println!("count of means    {}", report.count);
    let (date, time) = (date_of(report.approach), time_of_day(report.approach));
    let which = if report.fallback {
        "the middle of the recording: it shows no approach"
    } else {
        "where the frequency falls fastest"
    };
    println!("taken about       {date} {time} UTC by the recorder's clock, {which}");
}

/// A warning, where any of the means lies outside the orbit file.
fn print_outside(report: &Report) {
    let (outside, count) = (report.outside, report.count);
    if outside > 0 {
        println!("{outside} of {count} means lie outside the orbit file: take a newer one");
    }
}

/// The instant of the closest approach and that of the last mean, by the table's clock, and where they lie.
fn print_places(sample: &Sample, report: &Report, means: Recording) -> Result<(), Refusal> {
    let closest =
        orbit::find_pca_time(sample.table(), sample.observer, report.approach, TOLERANCE)?;
    let (instant, place) = (by_table(closest.instant), place_words(closest.place));
    println!("closest approach  {instant}, {place}");
    let last = moved(means.instants[means.instants.len() - 1], report);
    let (instant, place) = (by_table(last), place_and_distance(sample, last));
    println!("last mean         {instant}, {place}");
    Ok(())
}

/// An instant by the table's clock.
fn by_table(instant: Nanoseconds) -> String {
    let (date, time) = (date_of(instant), time_of_day(instant));
    format!("{date} {time} UTC by the table's clock")
}

/// Where an instant lies, and how far the satellite is then by the table. Without a position there it is said so, and no error: the
/// fit leaves such a mean out.
fn place_and_distance(sample: &Sample, instant: Nanoseconds) -> String {
    match orbit::propagate_ecef(sample.table(), instant, TOLERANCE) {
        Ok(Propagation { motion, place }) => {
            let Metres(distance) = distance(motion.position, sample.observer);
            let place = place_words(place);
            format!("{place}, the satellite {distance:.0} m away")
        }
        Err(refusal) => format!("no position there (refusal {})", refusal.number()),
    }
}

/// Where an instant lies, in words.
fn place_words(place: Place) -> &'static str {
    match place {
        Place::Before => "before the orbit file begins",
        Place::Within => "within the orbit file",
        Place::After => "after the orbit file ends",
    }
}

/// An instant by the recorder's clock, moved by the clock offset in whole microseconds as the fit moved it.
fn moved(Nanoseconds(nanoseconds): Nanoseconds, report: &Report) -> Nanoseconds {
    let microseconds = orbit::truncated(report.clock_offset.0 * 1e6);
    Nanoseconds(nanoseconds - microseconds * 1000)
}

/// How far two positions are apart.
fn distance(from: Position, to: Position) -> Metres {
    let [x, y, z] = [0, 1, 2].map(|axis| from[axis].0 - to[axis].0);
    Metres(orbit::sqrt(x * x + y * y + z * z))
}

/// The first means and the last.
fn print_means(means: Recording) {
    let count = means.instants.len();
    let first = count.min(MEANS_SHOWN);
    println!(
        "means             the first {first} of {count} and the last, by the recorder's clock:"
    );
    (0..first).for_each(|i| print_mean(means, i));
    if count > first {
        print_mean(means, count - 1);
    }
}

fn print_mean(means: Recording, i: usize) {
    let time = time_of_day(means.instants[i]);
    println!(
        "    mean {:3}      {time} UTC  {:.3} Hz",
        i + 1,
        means.frequencies[i].0
    );
}

/// The date of an instant, UTC.
fn date_of(Nanoseconds(nanoseconds): Nanoseconds) -> String {
    let is_leap = |year: i64| year % 4 == 0 && (year % 100 != 0 || year % 400 == 0);
    let days_of = |year: i64| 365 + i64::from(is_leap(year));
    let mut days = nanoseconds.div_euclid(86_400 * SECOND);
    let mut year = 1970;
    while days < 0 {
        year -= 1;
        days += days_of(year);
    }
    while days >= days_of(year) {
        days -= days_of(year);
        year += 1;
    }
    let february = 28 + i64::from(is_leap(year));
    let mut month = 1;
    for length in [31, february, 31, 30, 31, 30, 31, 31, 30, 31, 30] {
        if days < length {
            break;
        }
        days -= length;
        month += 1;
    }
    format!("{year}-{month:02}-{:02}", days + 1)
}

/// The time of day of an instant, to the microsecond, cut toward earlier.
fn time_of_day(Nanoseconds(nanoseconds): Nanoseconds) -> String {
    let microseconds = nanoseconds.rem_euclid(86_400 * SECOND) / 1000;
    let (seconds, fraction) = (microseconds / 1_000_000, microseconds % 1_000_000);
    let (hour, minute, second) = (seconds / 3600, seconds / 60 % 60, seconds % 60);
    format!("{hour:02}:{minute:02}:{second:02}.{fraction:06}")
}

/// The steepest slope of the means, and the slant range by it.
fn print_slope_and_range(centre_frequency: Hertz, means: Recording) -> Result<(), Refusal> {
    let slope = orbit::steepest_slope(means)?;
    let Metres(range) = orbit::estimate_slant_range(centre_frequency, slope);
    println!("steepest slope    {:.3} Hz/s", slope.0);
    println!("slant range       {range:.0} m, estimated from that slope");
    Ok(())
}

/// Whether the fit found the offsets that went into the sample data.
fn print_known(known: &Known, report: &Report) -> bool {
    let found = (report.clock_offset.0 - known.clock_offset.0).abs() <= 0.005
        && (report.frequency_offset.0 - known.frequency_offset.0).abs() <= 0.5;
    let verdict = if found {
        "found, to within 0.005 s and 0.5 Hz"
    } else {
        "NOT found"
    };
    println!(
        "went into it      {:.5} s and {:.3} Hz: {verdict}",
        known.clock_offset.0, known.frequency_offset.0
    );
    found
}

/// The same pass with the table in kilometres is refused, and nothing is written.
fn show_kilometres(mut sample: Sample) -> bool {
    for Metres(component) in sample.positions.as_flattened_mut() {
        *component /= 1000.0;
    }
    println!("\nThe same pass, the table in kilometres");
    let mut areas = Areas::new();
    let refusal = run_pass(&sample, sample.recording(), &mut areas).err();
    print_refused(refusal, Refusal::PositionBeyondLimits) & print_untouched(areas.untouched())
}

/// The same file with commas for points is refused, and nothing is written.
fn show_commas() -> bool {
    let comma_for_point = |&byte: &u8| if byte == b'.' { b',' } else { byte };
    let file = &ORBIT_FILE.iter().map(comma_for_point).collect::<Vec<u8>>();
    println!("\nThe same orbit file, commas for points");
    let (mut instants, mut positions) = MARKED_TABLE;
    let answer = orbit::read_sp3(file, SATELLITE, LEAP_SECONDS, &mut instants, &mut positions);
    let untouched = (instants, positions) == MARKED_TABLE;
    print_refused(answer.err(), Refusal::OrbitFileUnreadable) & print_untouched(untouched)
}

/// The same board with an RMSE that is no number is refused, though its entry is superseded.
fn show_board_refused(mut board: [Entry; ENTRIES]) -> bool {
    board[1].rmse = Hertz(f64::NAN);
    println!("\nThe same board, the RMSE of the older entry no number");
    print_refused(orbit::fleet_board(&board).err(), Refusal::EntryNotFinite)
}

/// A call that should be refused: whether it was, as expected.
fn print_refused(refusal: Option<Refusal>, expected: Refusal) -> bool {
    match refusal {
        None => println!("NOT refused"),
        Some(refusal) => print_refusal(refusal),
    }
    refusal == Some(expected)
}

/// Whether such a call wrote nothing.
fn print_untouched(untouched: bool) -> bool {
    println!(
        "lent areas        {}",
        if untouched { "untouched" } else { "WRITTEN" }
    );
    untouched
}

fn print_refusal(refusal: Refusal) {
    println!("refused by        {}", refusal.number());
    println!("what is wrong     {}", refusal.what_is_wrong());
    println!("what to do        {}", refusal.what_to_do());
}

#[cfg(test)]
mod tests {
    use super::{date_of, time_of_day};
    use orbit::Nanoseconds;

    #[test]
    fn instants_before_1970_and_at_leap_days() {
        let shown = [
            (0, "1970-01-01 00:00:00.000000"),
            (-1, "1969-12-31 23:59:59.999999"),
            (-4_000_000_000_000_000_000, "1843-03-31 16:53:20.000000"),
            (4_000_000_000_000_000_000, "2096-10-02 07:06:40.000000"),
            (951_782_400_000_000_000, "2000-02-29 00:00:00.000000"),
            (-2_203_891_200_000_001_000, "1900-02-28 23:59:59.999999"),
            (-2_203_891_200_000_000_000, "1900-03-01 00:00:00.000000"),
        ];
        for (nanoseconds, expected) in shown {
            let instant = Nanoseconds(nanoseconds);
            let text = format!("{} {}", date_of(instant), time_of_day(instant));
            assert_eq!(text, expected);
        }
    }
}
