//! Propagation and closest approach at the ends of tables: before the first coordinate, from the first to the last, after the last.

use crate::driver::compare as compare_call;
use crate::ours::orbit as ours;
use crate::tally::{Tally, Total};
use compare::calls::{Call, Entry};
use compare::inputs::integers::INSTANT_LIMIT;
use compare::inputs::outside::{self, AT_THE_ENDS};
use compare::inputs::random::Random;
use compare::inputs::tables::{self, SPACINGS, Table};
use compare::place::{AFTER, BEFORE, WITHIN};
use compare::words::Word;

/// How many tables of each spacing; each is asked for six instants.
const TABLES: usize = 400;

/// How many tables of which nine closest approaches are looked for.
const CLOSEST: usize = 300;

/// What document 02 says of the six instants at the ends.
const PLACES: [i64; 6] = [BEFORE, WITHIN, WITHIN, WITHIN, WITHIN, AFTER];

/// Compares both entries.
pub fn compare(total: &mut Total) {
    compare_propagations(total);
    compare_closest(total);
}

/// The propagation a nanosecond before, at and after both ends of tables of every spacing.
fn compare_propagations(total: &mut Total) {
    let mut tally = Tally::new("propagate_ecef, the ends of the table");
    let mut random = Random::new(39);
    for spacing in SPACINGS {
        for _ in 0..TABLES {
            let table = tables::draw(&mut random, spacing);
            compare_ends(&mut tally, table);
        }
    }
    tally.must_have_noted(&["refused by 4", "refused by 8", "with a NaN"]);
    tally.must_have_noted(&["the first at -4e18", "the last at 4e18"]);
    tally.finish(total);
}

/// The six instants of one table; what is expected must be what the paper says of them.
fn compare_ends(tally: &mut Tally, table: Table) {
    let mut call = Call {
        table,
        ..Call::default()
    };
    let [first, last] = outside::ends(&call.table);
    for (instant, place) in outside::at_the_ends(&call.table).into_iter().zip(PLACES) {
        call.instant = instant;
        let entry = Entry::PropagateEcef;
        let expected = compare_call(tally, entry, ours::propagation, &call);
        let said = expected.results.last();
        let right = said.is_none_or(|&said| said == Word::Whole(place));
        assert!(right, "{instant} from {first} to {last} is not {place}");
        tally.note_if("the first at -4e18", first == -INSTANT_LIMIT);
        tally.note_if("the last at 4e18", last == INSTANT_LIMIT);
    }
}

/// Closest approaches on the ends, a nanosecond beside them, and farther from them.
fn compare_closest(total: &mut Total) {
    let mut tally = Tally::new("find_pca_time, the ends of the table");
    let mut random = Random::new(43);
    for _ in 0..CLOSEST {
        let (_, table) = outside::low(&mut random);
        for closest in outside::about_the_ends(&mut random, &table) {
            let call = outside::overhead_at(&mut random, table.clone(), closest);
            let expected = compare_call(&mut tally, Entry::FindPcaTime, ours::closest, &call);
            let found = expected.results[0].bits() as i64;
            tally.note_if("where it was looked for", found == closest);
            let beyond = found.abs() > INSTANT_LIMIT;
            tally.note_if("past the range of an instant", beyond);
            if let Some(what) = outside::name_at_the_ends(&table, found) {
                tally.note(what);
            }
        }
    }
    tally.must_have_noted(&AT_THE_ENDS);
    tally.must_have_noted(&["past the range of an instant"]);
    tally.finish(total);
}
