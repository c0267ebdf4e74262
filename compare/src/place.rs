//! Request 2.6, written from document 02 over the table itself: where an instant lies, and how many of the samples or means of a fit lie outside.

use crate::answers::Answer;
use crate::calls::{Call, Entry};
use crate::reference::{self, Samples};
use chrono::{DateTime, Utc};

/// The words for where an instant lies.
pub const BEFORE: i64 = 0;
pub const WITHIN: i64 = 1;
pub const AFTER: i64 = 2;

/// Nanoseconds in a microsecond.
const MICROSECOND: i64 = 1_000;

/// Before the first coordinate an instant has none at or before it, after the last none at or after it.
pub fn place(table: &[i64], instant: i64) -> i64 {
    let early = table.iter().filter(|&&n| n <= instant).count();
    let late = table.iter().filter(|&&n| n >= instant).count();
    match (early, late) {
        (0, _) => BEFORE,
        (_, 0) => AFTER,
        _ => WITHIN,
    }
}

/// How many of these instants lie before the first coordinate or after the last.
pub fn outside(table: &[i64], instants: &[i64]) -> usize {
    let places = instants.iter().map(|&n| place(table, n));
    places.filter(|&place| place != WITHIN).count()
}

/// The instants of samples, each so many nanoseconds earlier.
pub fn earlier(samples: &Samples, by: i64) -> Vec<i64> {
    let instants = samples.iter().map(|&(n, _)| reference::nanoseconds(n));
    instants.map(|n| n - by).collect()
}

/// The nanoseconds by which `fit_satellite` moves a sample earlier: those of the shift's whole microseconds.
pub fn moves(shift: f64) -> i64 {
    (shift * 1e6) as i64 * MICROSECOND
}

/// What a report was made of: the table's instants, the samples or means, and the shift that it gives.
pub struct Reported<'a> {
    pub table: &'a [i64],
    pub samples: Vec<(DateTime<Utc>, f64)>,
    pub shift: f64,
}

impl<'a> Reported<'a> {
    /// That of an answer of the fit or the pass, if it is no refusal.
    pub fn of(entry: Entry, call: &'a Call, answer: &Answer) -> Option<Self> {
        let shift = answer.results.first()?.bits();
        let samples = reference::samples(&call.recording);
        let means = entry == Entry::Pass;
        Some(Reported {
            table: &call.table.instants,
            samples: if means {
                reference::means(&samples)
            } else {
                samples
            },
            shift: f64::from_bits(shift),
        })
    }

    /// The instants as the fit moved them.
    pub fn moved(&self) -> Vec<i64> {
        earlier(&self.samples, moves(self.shift))
    }

    /// Whether another number would lie outside if they were moved by so many nanoseconds instead.
    pub fn is_another_if_moved_by(&self, nanoseconds: i64) -> bool {
        let instead = earlier(&self.samples, nanoseconds);
        outside(self.table, &instead) != outside(self.table, &self.moved())
    }

    /// Whether the truncation of the shift to microseconds decides: the shift in nanoseconds and the nearest microseconds both give another number.
    pub fn is_decided_by_truncation(&self) -> bool {
        let nanoseconds = (self.shift * 1e9) as i64;
        let nearest = (self.shift * 1e6).round() as i64 * MICROSECOND;
        [nanoseconds, nearest]
            .into_iter()
            .all(|by| self.is_another_if_moved_by(by))
    }
}
