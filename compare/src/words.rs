//! How numbers are written and compared: by their bits, in lower-case hexadecimal digits.

use std::fmt;

/// The same bits, any NaN counting as NaN.
pub fn same(a: f64, b: f64) -> bool {
    a.to_bits() == b.to_bits() || a.is_nan() && b.is_nan()
}

/// A double's bits.
pub fn hex(x: f64) -> String {
    format!("{:016x}", x.to_bits())
}

/// The bits of several doubles, one blank between.
pub fn hex_list(list: &[f64]) -> String {
    let words: Vec<String> = list.iter().map(|&x| hex(x)).collect();
    words.join(" ")
}

/// A whole number's two's complement.
pub fn hex_whole(n: i64) -> String {
    format!("{n:016x}")
}

/// A length.
pub fn hex_length(length: usize) -> String {
    format!("{length:016x}")
}

/// An answered number: it is written as its bits, any NaN as the word `nan`.
#[derive(Clone, Copy)]
pub enum Word {
    Whole(i64),
    Double(f64),
}

impl Word {
    /// The 64 bits.
    pub fn bits(self) -> u64 {
        match self {
            Word::Whole(n) => n as u64,
            Word::Double(x) => x.to_bits(),
        }
    }

    /// Whether it is a NaN.
    pub fn is_nan(self) -> bool {
        matches!(self, Word::Double(x) if x.is_nan())
    }
}

impl PartialEq for Word {
    fn eq(&self, other: &Word) -> bool {
        match (*self, *other) {
            (Word::Whole(a), Word::Whole(b)) => a == b,
            (Word::Double(a), Word::Double(b)) => same(a, b),
            _ => false,
        }
    }
}

impl fmt::Display for Word {
    fn fmt(&self, f: &mut fmt::Formatter) -> fmt::Result {
        if self.is_nan() {
            write!(f, "nan")
        } else {
            write!(f, "{:016x}", self.bits())
        }
    }
}
