//! One call of the reader of orbit files: what it takes, in the order in which it is handed over.

use crate::description;
use crate::words::{hex_length, hex_whole};

/// How many bytes a word of a case holds.
const BYTES: usize = 8;

/// What the reader takes.
#[derive(Clone)]
pub struct FileCall {
    pub bytes: Vec<u8>,
    pub satellite: [u8; 3],
    pub leap_seconds: i16,
    /// The lengths of the areas for instants and for positions.
    pub areas: [usize; 2],
}

impl FileCall {
    /// The call with areas that are longer than its records need by so much.
    pub fn with_room(bytes: Vec<u8>, satellite: [u8; 3], leap: i16, more: [usize; 2]) -> Self {
        let records = description::read(&bytes, satellite, leap);
        let kept = records.map_or(1, |records| records.len());
        FileCall {
            bytes,
            satellite,
            leap_seconds: leap,
            areas: [kept + more[0], 3 * kept + more[1]],
        }
    }

    /// The arguments, a word of bits each: the file's words as a slice, how many bytes it has, then the rest; see CASES.md.
    pub fn arguments(&self) -> Vec<String> {
        let words = self.bytes.chunks(BYTES).map(word);
        let mut list = vec![hex_length(self.bytes.len().div_ceil(BYTES))];
        list.extend(words);
        list.push(hex_length(self.bytes.len()));
        list.push(word(&self.satellite));
        list.push(hex_whole(i64::from(self.leap_seconds)));
        list.extend(self.areas.iter().map(|&length| hex_length(length)));
        list
    }
}

/// The word of up to eight bytes, the first one lowest; bytes that are missing are zeros.
fn word(bytes: &[u8]) -> String {
    let mut all = [0; BYTES];
    all[..bytes.len()].copy_from_slice(bytes);
    format!("{:016x}", u64::from_le_bytes(all))
}
