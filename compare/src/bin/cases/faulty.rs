//! Calls that an entry refuses: a fault of each check that it makes, and two faults at once.

use compare::calls::{Call, Entry};
use compare::checks::CHECKS;
use compare::inputs::faults::{self, Change};
use compare::inputs::random::Random;

/// The longest call in words; longer ones are left to the judge.
const LONGEST: usize = 120;

/// How many of the checks are document 01's.
const FIRST: usize = 7;

/// The seed of the first entry's stream for the checks of later requests.
const LATER: u64 = 110;

/// A fault of each check; with `pairs` also each of them together with one of the next check.
pub fn calls(random: &mut Random, entry: Entry, pairs: bool) -> Vec<(Entry, Call)> {
    let sound = faults::sound(11, 4);
    let faults: Vec<Change> = faults::all()
        .into_iter()
        .filter(|fault| entry.makes(fault.number, fault.part))
        .filter(|fault| fault.made(&sound).arguments(entry).len() <= LONGEST)
        .collect();
    // Later checks have a stream of their own, so that the cases behind these stay as they were.
    let mut later = Random::new(LATER + entry as u64);
    let (first, rest) = CHECKS.split_at(FIRST);
    let mut chosen = one_of_each(random, &faults, first);
    chosen.extend(one_of_each(&mut later, &faults, rest));
    let mut calls: Vec<Call> = chosen.iter().map(|fault| fault.made(&sound)).collect();
    if pairs {
        let two = chosen.windows(2);
        calls.extend(two.map(|two| two[0].made(&two[1].made(&sound))));
    }
    calls.into_iter().map(|call| (entry, call)).collect()
}

/// One of the faults of each of these checks.
fn one_of_each<'a>(random: &mut Random, faults: &'a [Change], numbers: &[u8]) -> Vec<&'a Change> {
    let numbers = numbers.iter();
    numbers
        .filter_map(|&number| one_of(random, faults, number))
        .collect()
}

/// One of the faults of a check.
fn one_of<'a>(random: &mut Random, faults: &'a [Change], number: u8) -> Option<&'a Change> {
    let of_number = faults.iter().filter(|fault| fault.number == number);
    let of_number: Vec<&Change> = of_number.collect();
    (!of_number.is_empty()).then(|| random.pick(&of_number))
}
