//! The sample data of examples/data. The table is an orbit file in SP3-c. The others are as C includes them: rows of numbers in
//! braces, and a comment that says what they are.

use orbit::{
    Hertz, LeapSeconds, MOST_COORDINATES, Metres, Nanoseconds, Position, Recording, Refusal,
    Seconds, Table,
};
use std::fmt::Debug;
use std::str::FromStr;

/// The orbit file. It is in GPS time.
pub const ORBIT_FILE: &[u8] = include_bytes!("../../data/table.sp3");

/// The satellite of the pass, by its three bytes in the orbit file.
pub const SATELLITE: [u8; 3] = *b"L01";

/// How far GPS time was ahead of UTC on the day of the pass.
pub const LEAP_SECONDS: LeapSeconds = LeapSeconds(18);

/// The tolerance of an even window. Sellers of orbit files promise a millisecond: where a file is off by more, its own instants are used
/// instead of even ones.
pub const TOLERANCE: Seconds = Seconds(0.001);

/// The offsets that went into the recording.
pub struct Known {
    pub clock_offset: Seconds,
    pub frequency_offset: Hertz,
}

/// All of the sample data.
pub struct Sample {
    pub instants: Vec<Nanoseconds>,
    pub positions: Vec<Position>,
    pub samples: Vec<Nanoseconds>,
    pub frequencies: Vec<Hertz>,
    pub observer: Position,
    pub centre_frequency: Hertz,
    pub known: Known,
}

impl Sample {
    pub fn load() -> Self {
        let recording = rows(include_str!("../../data/recording.inc"))
            .map(|[instant, frequency]| (Nanoseconds(number(instant)), Hertz(number(frequency))));
        let [x, y, z, centre_frequency] = row(include_str!("../../data/station.inc"));
        let [clock_offset, frequency_offset] = row(include_str!("../../data/known.inc"));
        let (instants, positions) = read_table(ORBIT_FILE).expect("the orbit file is SP3-c");
        let (samples, frequencies) = recording.unzip();
        Sample {
            instants,
            positions,
            samples,
            frequencies,
            observer: [x, y, z].map(|component| Metres(number(component))),
            centre_frequency: Hertz(number(centre_frequency)),
            known: Known {
                clock_offset: Seconds(number(clock_offset)),
                frequency_offset: Hertz(number(frequency_offset)),
            },
        }
    }

    pub fn table(&self) -> Table<'_> {
        Table {
            instants: &self.instants,
            positions: &self.positions,
        }
    }

    pub fn recording(&self) -> Recording<'_> {
        Recording {
            instants: &self.samples,
            frequencies: &self.frequencies,
        }
    }
}

/// The instants and positions of the satellite in an orbit file.
fn read_table(file: &[u8]) -> Result<(Vec<Nanoseconds>, Vec<Position>), Refusal> {
    let mut instants = vec![Nanoseconds(0); MOST_COORDINATES];
    let mut positions = vec![Position::default(); MOST_COORDINATES];
    let count = orbit::read_sp3(file, SATELLITE, LEAP_SECONDS, &mut instants, &mut positions)?;
    instants.truncate(count);
    positions.truncate(count);
    Ok((instants, positions))
}

/// The words of each row, so many to a row.
fn rows<const WORDS: usize>(text: &str) -> impl Iterator<Item = [&str; WORDS]> {
    let inner = text
        .lines()
        .filter_map(|line| line.strip_prefix('{')?.strip_suffix("},"));
    inner.map(|row| {
        let words: Vec<&str> = row.split(", ").collect();
        words
            .try_into()
            .expect("a row of the sample data has its length")
    })
}

/// The words of the only row.
fn row<const WORDS: usize>(text: &str) -> [&str; WORDS] {
    rows(text).next().expect("the sample data have this row")
}

/// The number that a word stands for.
fn number<T: FromStr<Err: Debug>>(word: &str) -> T {
    word.parse().expect("the sample data hold numbers")
}
