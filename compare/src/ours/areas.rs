//! The two areas that are lent for means, or for the records of a file, filled with markers, and some room behind each that is not lent.

use compare::answers::{both_areas, marked_frequencies, marked_instants};
use compare::words::Word;

/// The room behind each area.
const ROOM: usize = 4;

/// Both areas with the room behind them.
pub struct Areas {
    instants: Vec<i64>,
    frequencies: Vec<f64>,
}

impl Areas {
    /// Areas of these lengths.
    pub fn new(lengths: [usize; 2]) -> Self {
        Areas {
            instants: marked_instants(lengths[0] + ROOM),
            frequencies: marked_frequencies(lengths[1] + ROOM),
        }
    }

    /// What is lent.
    pub fn lent(&mut self) -> (&mut [i64], &mut [f64]) {
        let instants = self.instants.len() - ROOM;
        let frequencies = self.frequencies.len() - ROOM;
        (
            &mut self.instants[..instants],
            &mut self.frequencies[..frequencies],
        )
    }

    /// All that was lent, as it is now; the room behind it must be as it was.
    pub fn words(mut self) -> Vec<Word> {
        let room = self.instants.split_off(self.instants.len() - ROOM);
        assert!(room == marked_instants(ROOM), "written past an area");
        let room = self.frequencies.split_off(self.frequencies.len() - ROOM);
        assert!(room == marked_frequencies(ROOM), "written past an area");
        both_areas(&self.instants, &self.frequencies)
    }
}
