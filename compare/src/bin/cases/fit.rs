//! The cases of the fit and the pass.

use crate::{faulty, of};
use compare::calls::{Call, Entry};
use compare::expected;
use compare::inputs::passes::{self, Kind, Size};
use compare::inputs::random::Random;
use compare::inputs::{approaches, outside};

/// All but the paper's are short.
const SIZE: Size = Size {
    rows: 20,
    samples: 12,
};

/// The kinds of which there are cases.
const KINDS: [Kind; 6] = [
    passes::noisy_unevenly,
    passes::in_any_order,
    passes::lost_at_some_shifts,
    passes::at_rest,
    passes::through_the_observer,
    passes::rising,
];

/// The cases of both entries.
pub fn cases() -> Vec<(Entry, Call)> {
    let mut random = Random::new(90);
    let mut list = Vec::new();
    for entry in [Entry::FitSatellite, Entry::Pass] {
        list.extend(of(entry, calls(&mut random)));
        list.extend(faulty::calls(&mut random, entry, false));
    }
    let approaches = approaches::KINDS.map(|kind| reported(&mut random, kind.draw));
    list.extend(approaches.map(|call| (Entry::Pass, call)));
    for (entry, seed) in [(Entry::FitSatellite, 91), (Entry::Pass, 92)] {
        let mut random = Random::new(seed);
        list.extend(outside::KINDS.map(|draw| (entry, draw(&mut random, entry))));
    }
    list
}

/// The first pass of a kind that is not refused.
fn reported(random: &mut Random, draw: Kind) -> Call {
    loop {
        let call = draw(random, SIZE);
        if expected::answer(Entry::Pass, &call).refusal == Some(0) {
            return call;
        }
    }
}

/// Known clock offsets, about half of the positions lost, then one of each kind.
fn calls(random: &mut Random) -> Vec<Call> {
    let known = [false, true].map(|uneven| passes::known(random, SIZE, uneven).0);
    let mut list: Vec<Call> = known.into();
    let half = SIZE.samples / 2;
    list.extend([half - 1, half, half + 1].map(|lost| passes::with_lost(random, SIZE, lost)));
    list.extend(KINDS.map(|draw| draw(random, SIZE)));
    list
}
