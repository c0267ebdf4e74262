//! One call of the fleet board: a list of entries, in the order in which they are handed over.

use crate::words::{hex, hex_length, hex_whole};

/// How many words of a case an entry has.
const WORDS: usize = 5;

/// What a boat has of a satellite.
#[derive(Clone, Copy)]
pub struct BoardEntry {
    /// The satellite's number.
    pub satellite: u16,
    /// Nanoseconds since 1970; any number is one.
    pub instant: i64,
    /// Seconds.
    pub clock_offset: f64,
    /// Hertz.
    pub frequency_offset: f64,
    /// Hertz.
    pub rmse: f64,
}

impl BoardEntry {
    /// Its words in the order of its fields.
    fn words(&self) -> [String; WORDS] {
        [
            hex_whole(i64::from(self.satellite)),
            hex_whole(self.instant),
            hex(self.clock_offset),
            hex(self.frequency_offset),
            hex(self.rmse),
        ]
    }
}

/// The arguments, a word of bits each: the words of all entries as one slice; see CASES.md.
pub fn arguments(entries: &[BoardEntry]) -> Vec<String> {
    let mut words = vec![hex_length(WORDS * entries.len())];
    words.extend(entries.iter().flat_map(BoardEntry::words));
    words
}
