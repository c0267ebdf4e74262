//! What the refusals of the library mean, in the words of include/orbit.h.

use std::fmt;

/// Why the library gave no answer. The checks are made in this order, but 16 behind 7 and before 8; the first that fails is the
/// refusal. 11 to 13 are of `read_sp3` alone, 14 and 15 of `fleet_board` alone, and neither of these two makes any of the others.
#[derive(Clone, Copy, Debug, PartialEq, Eq)]
pub enum Refusal {
    CoordinateCount = 1,
    SampleCount = 2,
    AreaTooShort = 3,
    InstantBeyondLimit = 4,
    InstantsNotRising = 5,
    PositionBeyondLimits = 6,
    FrequencyUnusable = 7,
    PivotTooSmall = 8,
    NoApproach = 9,
    NoShiftFits = 10,
    OrbitFileUnreadable = 11,
    TimeSystemNotTaken = 12,
    NoPositionOrNoRoom = 13,
    EntryCount = 14,
    EntryNotFinite = 15,
    ToleranceUnusable = 16,
}

use Refusal::*;

/// A refusal, what is wrong and what to do.
type Text = (Refusal, &'static str, &'static str);

/// Every refusal, in the order of their numbers.
const TEXTS: &[Text] = &[
    (
        CoordinateCount,
        "fewer than 10 or more than 4,096 coordinates, or not three position numbers for each instant.",
        "lend a part of the table with 10 to 4,096 coordinates, and all three numbers of each.",
    ),
    (
        SampleCount,
        "no sample, more than 1,312, or not one frequency for each instant.",
        "see whether the receiver is stuck, and lend one pass of at most 1,312 samples, each instant with its frequency.",
    ),
    (
        AreaTooShort,
        "an area for the means is shorter than the recording.",
        "lend two areas at least as long as the recording.",
    ),
    (
        InstantBeyondLimit,
        "an instant is more than 4,000,000,000,000,000,000 ns (some 126 years) from 1970-01-01.",
        "look for a wrong unit or a damaged instant; instants are nanoseconds.",
    ),
    (
        InstantsNotRising,
        "the coordinates' instants do not strictly rise.",
        "sort the table, and strike out coordinates that stand twice.",
    ),
    (
        PositionBeyondLimits,
        "a coordinate or the observer is not finite, has a component over 100,000,000 m, or all three under 1,000,000 m.",
        "give metres, not kilometres; strike out blank entries.",
    ),
    (
        FrequencyUnusable,
        "a sample's frequency is not finite, or the centre frequency not finite or not above zero.",
        "strike out the sample, or set the centre frequency, in hertz.",
    ),
    (
        PivotTooSmall,
        "a column's pivot has a magnitude below 1e-12, so the matrix has no inverse that could be trusted.",
        "look for repeated or missing nodes; in a table, for coordinates that lie too close together or too far apart.",
    ),
    (
        NoApproach,
        "no slope of the frequency is below zero, so the recording shows no approach.",
        "take a recording that holds the closest approach, with at least three samples some milliseconds apart.",
    ),
    (
        NoShiftFits,
        "no shift of the clock fits the recording.",
        "look whether recording, table, observer and centre frequency belong to the same pass.",
    ),
    (
        OrbitFileUnreadable,
        "a header line, a date or a position of the satellite is not as SP3-c has it, a position stands before the first date, or a date is not real or farther from 1970 than refusal 4 allows.",
        "fetch the orbit file again, whole and unedited; if it is refused again, ask its sender for SP3-c.",
    ),
    (
        TimeSystemNotTaken,
        "the orbit file's time system is neither UTC nor GPS.",
        "take a file in UTC or GPS time; its line 13 says which, in columns 10 to 12.",
    ),
    (
        NoPositionOrNoRoom,
        "the orbit file has no position of the satellite, or a lent area is too short for them.",
        "look how the file names the satellite, such as G05; lend room for an instant and three numbers for each of its positions.",
    ),
    (
        EntryCount,
        "no entry on the board, or more than 64.",
        "lend at least one entry and at most 64; of each satellite the latest is enough.",
    ),
    (
        EntryNotFinite,
        "the clock offset, frequency offset or RMSE of an entry is not finite, superseded entries included.",
        "find the entry that holds it, and strike it out.",
    ),
    (
        ToleranceUnusable,
        "the tolerance of an even window is not finite or below zero.",
        "give the seconds by which the gaps of a window may be off their mean, such as 0.001 for a file that promises a millisecond.",
    ),
];

impl Refusal {
    /// The refusal's number.
    pub fn number(self) -> u8 {
        self as u8
    }

    /// What is wrong.
    pub fn what_is_wrong(self) -> &'static str {
        self.texts().1
    }

    /// What to do about it.
    pub fn what_to_do(self) -> &'static str {
        self.texts().2
    }

    fn texts(self) -> &'static Text {
        Self::numbered(self.number()).expect("every refusal has its texts")
    }

    /// The texts of the refusal with this number.
    fn numbered(number: u8) -> Option<&'static Text> {
        TEXTS.iter().find(|text| text.0.number() == number)
    }

    /// The answer where the library gave the number 0, otherwise the refusal of that number.
    pub(crate) fn or<T>(number: u8, answer: T) -> Result<T, Refusal> {
        match Self::numbered(number) {
            None if number == 0 => Ok(answer),
            None => unreachable!("the library has no refusal {number}"),
            Some(text) => Err(text.0),
        }
    }
}

impl fmt::Display for Refusal {
    fn fmt(&self, out: &mut fmt::Formatter) -> fmt::Result {
        let (number, (_, wrong, remedy)) = (self.number(), self.texts());
        write!(out, "refused by {number}: {wrong} What to do: {remedy}")
    }
}

impl std::error::Error for Refusal {}
