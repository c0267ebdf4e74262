//! The fleet board.

use crate::driver::tell;
use crate::ours::board as ours;
use crate::tally::{Tally, Total};
use crate::timing::{Row, row};
use compare::boards::{self, BoardEntry};
use compare::fleet::{self, ENTRIES};
use compare::inputs::boards as inputs;
use compare::inputs::random::Random;
use std::collections::BTreeSet;
use std::hint::black_box;

/// How many lists of each sort of satellites, instants, RMSEs and clock offsets.
const LISTS: usize = 150;

/// The longest of the lists of which there is every one.
const SHORT: usize = 4;

/// How many lists of each length have each of their doubles spoilt in turn.
const SPOILT: usize = 4;

/// How many lists are timed by turns.
const TIMED: usize = 64;

/// What is noted of lists that are refused.
const MISCOUNTED: &str = "refused by 14";
const MISCOUNTED_FIRST: &str = "refused by 14, with a double not finite";
const NOT_FINITE: &str = "refused by 15";
const SUPERSEDED_NOT_FINITE: &str = "refused by 15, superseded entries alone not finite";

/// What decided between a survivor and another entry of its satellite.
const BY_INSTANT: &str = "decided by the instant";
const BY_FAR_INSTANT: &str = "decided by the instant, past an i64 apart";
const BY_RMSE: &str = "decided by the RMSE";
const BY_FRONT: &str = "decided by the front";
const BY_FRONT_OF_ZEROS: &str = "decided by the front, zeros of both signs";

/// What is noted of the sum and the mean.
const INFINITE: &str = "infinite";
const INFINITE_FORWARD: &str = "infinite, but not if summed backward";
const BY_ORDER: &str = "another if summed backward";
const NEGATIVE_ZEROS: &str = "of clock offsets -0 alone";
const SUBNORMAL: &str = "subnormal";

/// What is noted of as many entries as there may be.
const FULL_OF_ONE: &str = "the most entries, of one satellite";
const FULL_OF_ALL: &str = "the most entries, of as many satellites";

/// What is noted of the bytes that no field has.
const ANY_PADDING: &str = "with anything in the padding";

/// What lists of every sort must reach.
const REACHED: [&str; 17] = [
    MISCOUNTED,
    MISCOUNTED_FIRST,
    NOT_FINITE,
    SUPERSEDED_NOT_FINITE,
    BY_INSTANT,
    BY_FAR_INSTANT,
    BY_RMSE,
    BY_FRONT,
    BY_FRONT_OF_ZEROS,
    INFINITE,
    INFINITE_FORWARD,
    BY_ORDER,
    NEGATIVE_ZEROS,
    SUBNORMAL,
    FULL_OF_ONE,
    FULL_OF_ALL,
    ANY_PADDING,
];

/// Compares the entry.
pub fn compare(total: &mut Total) {
    compare_sorts(total);
    compare_lengths(total);
    compare_short(total);
    compare_faults(total);
}

/// Compares our answer to one call with the expected one. The padding of the entries holds anything in half of the lists, in the others zeros.
fn compare_call(tally: &mut Tally, random: &mut Random, entries: &[BoardEntry]) {
    let any = random.one_in(2);
    tally.note_if(ANY_PADDING, any);
    let answer = ours::offset(entries, || if any { random.bits() } else { 0 });
    let expected = fleet::answer(entries);
    tally.record(answer == expected, || {
        tell(&boards::arguments(entries), &answer, &expected)
    });
    match expected.refusal {
        Some(fleet::MISCOUNTED) => note_miscounted(tally, entries),
        Some(fleet::NOT_FINITE) => note_not_finite(tally, entries),
        _ => note_answered(tally, entries),
    }
}

/// Counts a list of no entry or too many.
fn note_miscounted(tally: &mut Tally, entries: &[BoardEntry]) {
    tally.note(MISCOUNTED);
    let finite = entries.iter().all(fleet::is_finite);
    tally.note_if(MISCOUNTED_FIRST, !finite);
}

/// Counts a list with doubles that are not finite.
fn note_not_finite(tally: &mut Tally, entries: &[BoardEntry]) {
    tally.note(NOT_FINITE);
    let superseded = |entry: &BoardEntry| {
        let mut others = entries.iter().filter(|o| o.satellite == entry.satellite);
        others.any(|other| other.instant > entry.instant)
    };
    let mut unfit = entries.iter().filter(|entry| !fleet::is_finite(entry));
    tally.note_if(SUPERSEDED_NOT_FINITE, unfit.all(superseded));
}

/// Counts what decided in a list that is answered, and what the order of its sum did.
fn note_answered(tally: &mut Tally, entries: &[BoardEntry]) {
    let places = fleet::survivors(entries);
    for what in decisions(entries, &places) {
        tally.note(what);
    }
    let offsets = places.iter().map(|&place| entries[place].clock_offset);
    let [forward, backward] = [
        fleet::mean(offsets.clone()),
        fleet::mean(offsets.clone().rev()),
    ];
    let negative_zero = |x: f64| x == 0.0 && x.is_sign_negative();
    let full = entries.len() == ENTRIES;
    tally.note_if(INFINITE, forward.is_infinite());
    tally.note_if(
        INFINITE_FORWARD,
        forward.is_infinite() && backward.is_finite(),
    );
    tally.note_if(BY_ORDER, forward.to_bits() != backward.to_bits());
    tally.note_if(NEGATIVE_ZEROS, offsets.clone().all(negative_zero));
    tally.note_if(SUBNORMAL, forward.is_subnormal());
    tally.note_if(FULL_OF_ONE, full && places.len() == 1);
    tally.note_if(FULL_OF_ALL, full && places.len() == ENTRIES);
}

/// What decided between the survivors and the other entries of their satellites.
fn decisions(entries: &[BoardEntry], places: &[usize]) -> BTreeSet<&'static str> {
    let mut found = BTreeSet::new();
    for &place in places {
        let survivor = &entries[place];
        let others = entries.iter().enumerate().filter(|&(k, _)| k != place);
        let rivals = others.filter(|(_, other)| other.satellite == survivor.satellite);
        found.extend(rivals.map(|(_, other)| decision(survivor, other)));
    }
    found
}

/// What decided between a survivor and one such entry.
fn decision(survivor: &BoardEntry, other: &BoardEntry) -> &'static str {
    if survivor.instant.checked_sub(other.instant).is_none() {
        BY_FAR_INSTANT
    } else if survivor.instant != other.instant {
        BY_INSTANT
    } else if survivor.rmse != other.rmse {
        BY_RMSE
    } else if survivor.rmse.to_bits() != other.rmse.to_bits() {
        BY_FRONT_OF_ZEROS
    } else {
        BY_FRONT
    }
}

/// Lists of every sort, also such as are refused.
fn compare_sorts(total: &mut Total) {
    let mut tally = Tally::new("fleet_board");
    let mut random = Random::new(110);
    for sorts in inputs::all_sorts() {
        for _ in 0..LISTS {
            let entries = inputs::draw(&mut random, sorts);
            compare_call(&mut tally, &mut random, &entries);
        }
    }
    tally.must_have_noted(&REACHED);
    tally.finish(total);
}

/// One list of each sort and each length, from none to two more than there may be.
fn compare_lengths(total: &mut Total) {
    let longest = inputs::LONGEST;
    let mut tally = Tally::new(format!("fleet_board, 0 to {longest} entries"));
    let mut random = Random::new(111);
    for length in 0..=longest {
        for sorts in inputs::all_sorts() {
            let entries = inputs::of_count(&mut random, sorts, length);
            compare_call(&mut tally, &mut random, &entries);
        }
    }
    tally.must_have_noted(&[MISCOUNTED, FULL_OF_ONE, FULL_OF_ALL]);
    tally.finish(total);
}

/// Every short list of a few entries.
fn compare_short(total: &mut Total) {
    let mut tally = Tally::new(format!(
        "fleet_board, every list of 1 to {SHORT} of a few entries"
    ));
    let mut random = Random::new(112);
    for length in 1..=SHORT {
        inputs::every_list(length, &mut |entries| {
            compare_call(&mut tally, &mut random, entries);
        });
    }
    tally.must_have_noted(&[BY_INSTANT, BY_FAR_INSTANT, BY_RMSE]);
    tally.must_have_noted(&[BY_FRONT, BY_FRONT_OF_ZEROS]);
    tally.finish(total);
}

/// A double that is not finite at every place of lists of every length.
fn compare_faults(total: &mut Total) {
    let mut tally = Tally::new("fleet_board, each double of each entry not finite");
    let mut random = Random::new(113);
    let all_sorts = inputs::all_sorts();
    for length in 1..=inputs::LONGEST {
        for _ in 0..SPOILT {
            let sorts = random.pick(&all_sorts);
            let sound = inputs::of_count(&mut random, sorts, length);
            for entries in inputs::every_fault(&mut random, &sound) {
                compare_call(&mut tally, &mut random, &entries);
            }
        }
    }
    tally.must_have_noted(&[MISCOUNTED_FIRST, NOT_FINITE, SUPERSEDED_NOT_FINITE]);
    tally.finish(total);
}

/// Times boards of several numbers of entries, two of each satellite; the other side is the judge's own board.
pub fn time() -> Vec<Row> {
    [4, 16, ENTRIES].map(time_board).into()
}

/// So many entries.
fn time_board(count: usize) -> Row {
    let mut random = Random::new(114);
    let lists = [(); TIMED].map(|()| inputs::two_of_each(&mut random, count));
    let both = lists.map(|list| (ours::lent(&list, || 0), list));
    let mut offset = 0.0;
    row(
        format!("fleet_board, {count} entries"),
        &both,
        |(lent, _)| ours::write_offset(lent, black_box(&mut offset)),
        |(_, entries)| fleet::clock_offset(entries),
    )
}
