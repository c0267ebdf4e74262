//! The counts of the answers that were compared and of those that differ.

use std::collections::BTreeMap;
use std::fmt;

/// How many differences of one name are shown.
const SHOWN: u64 = 5;

/// How many answers were compared, and how many of them differ.
#[derive(Default)]
pub struct Total {
    pub compared: u64,
    pub differing: u64,
}

impl fmt::Display for Total {
    fn fmt(&self, f: &mut fmt::Formatter) -> fmt::Result {
        write!(
            f,
            "{} compared, {} differing",
            self.compared, self.differing
        )
    }
}

/// The counts of one function under comparison.
pub struct Tally {
    name: String,
    total: Total,
    notes: BTreeMap<String, u64>,
}

impl Tally {
    /// No comparison yet.
    pub fn new(name: impl Into<String>) -> Self {
        Tally {
            name: name.into(),
            total: Total::default(),
            notes: BTreeMap::new(),
        }
    }

    /// Counts one comparison; of the first few that differ it prints what is told.
    pub fn record(&mut self, equal: bool, tell: impl FnOnce() -> String) {
        self.total.compared += 1;
        if equal {
            return;
        }
        self.total.differing += 1;
        if self.total.differing <= SHOWN {
            println!("{} {}", self.name, tell());
        }
    }

    /// Counts a comparison of which this can be said, so that the counts show what the inputs reached.
    pub fn note(&mut self, what: impl Into<String>) {
        *self.notes.entry(what.into()).or_default() += 1;
    }

    /// The same where this holds.
    pub fn note_if(&mut self, what: &str, holds: bool) {
        if holds {
            self.note(what);
        }
    }

    /// Stops the judge where one of these was never noted: the inputs no longer reach what they should.
    pub fn must_have_noted(&self, all: &[&str]) {
        for &what in all {
            assert!(self.notes.contains_key(what), "{}: no {what}", self.name);
        }
    }

    /// Prints the counts, and adds them to those of the whole run.
    pub fn finish(self, whole: &mut Total) {
        let notes = self.notes.iter();
        let notes: String = notes.map(|(what, n)| format!("; {what}: {n}")).collect();
        println!("{}: {}{notes}", self.name, self.total);
        whole.compared += self.total.compared;
        whole.differing += self.total.differing;
    }
}
