//! A place lent for one byte, which shows whether more than the byte was written.

use super::marked_whole;

/// What stands for a byte that was written wider than it is; no answer is this.
const WIDER: i64 = -1;

/// The first byte of eight that hold the marker.
pub struct Byte([u8; 8]);

impl Byte {
    /// All eight hold the marker.
    pub fn marked() -> Self {
        Byte(marked_whole().to_le_bytes())
    }

    /// What is lent.
    pub fn lent(&mut self) -> &mut u8 {
        &mut self.0[0]
    }

    /// The byte, the marker where it is untouched, and neither where one of the seven bytes behind it was written.
    pub fn told(&self) -> i64 {
        let marked = marked_whole().to_le_bytes();
        match self.0 {
            untouched if untouched == marked => marked_whole(),
            [byte, behind @ ..] if behind == marked[1..] => i64::from(byte),
            _ => WIDER,
        }
    }
}
