//! What an entry answers, and what it leaves in the areas lent to it.

use crate::words::Word;

/// What each area of instants holds before a call.
pub const INSTANT_MARKER: i64 = 0x1111_1111_1111_1111;

/// The bits of what each area of frequencies holds before a call.
pub const FREQUENCY_MARKER: u64 = 0x4444_4444_4444_4444;

/// One answer; two of them are the same if every word is.
#[derive(PartialEq)]
pub struct Answer {
    /// The refusal's number, 0 where it answered; none for an entry that never refuses.
    pub refusal: Option<u8>,
    /// The results; none on a refusal.
    pub results: Vec<Word>,
    /// All of both areas afterwards, for an entry that is lent some.
    pub areas: Vec<Word>,
}

impl Answer {
    /// A refusal by an entry that is lent no area.
    pub fn refused(number: u8) -> Self {
        Answer {
            refusal: Some(number),
            results: Vec::new(),
            areas: Vec::new(),
        }
    }

    /// Results of an entry that is lent no area.
    pub fn answered(results: Vec<Word>) -> Self {
        Answer {
            refusal: Some(0),
            results,
            areas: Vec::new(),
        }
    }

    /// The result of an entry that never refuses.
    pub fn unrefusable(result: Word) -> Self {
        Answer {
            refusal: None,
            results: vec![result],
            areas: Vec::new(),
        }
    }

    /// The same answer beside the areas.
    pub fn beside(self, areas: Vec<Word>) -> Self {
        Answer { areas, ..self }
    }

    /// Whether a result is a NaN.
    pub fn has_nan(&self) -> bool {
        self.results.iter().any(|word| word.is_nan())
    }

    /// The refusal's number in decimal, the results, the areas.
    pub fn words(&self) -> Vec<String> {
        let refusal = self.refusal.iter().map(u8::to_string);
        let rest = self.results.iter().chain(&self.areas);
        refusal.chain(rest.map(Word::to_string)).collect()
    }
}

/// The words of several doubles.
pub fn doubles(list: &[f64]) -> Vec<Word> {
    list.iter().map(|&x| Word::Double(x)).collect()
}

/// The words of both areas.
pub fn both_areas(instants: &[i64], frequencies: &[f64]) -> Vec<Word> {
    let mut words: Vec<Word> = instants.iter().map(|&n| Word::Whole(n)).collect();
    words.extend(doubles(frequencies));
    words
}

/// An area of instants that holds the marker everywhere.
pub fn marked_instants(length: usize) -> Vec<i64> {
    vec![INSTANT_MARKER; length]
}

/// An area of frequencies that holds the marker everywhere.
pub fn marked_frequencies(length: usize) -> Vec<f64> {
    vec![f64::from_bits(FREQUENCY_MARKER); length]
}
