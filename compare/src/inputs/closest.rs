//! Calls of the closest approach: satellites over an observer, and every other table.

use super::integers::INSTANT_LIMIT;
use super::orbits::Orbit;
use super::random::Random;
use super::tables::{self, PRESENT, SECOND, SPACINGS, Table};
use crate::calls::Call;

/// The kinds.
pub const KINDS: [fn(&mut Random) -> Call; 4] =
    [overhead, overhead_unevenly, any_table, overflowing];

/// A satellite that passes an observer on the ground, with an even table.
pub fn overhead(random: &mut Random) -> Call {
    let orbit = Orbit::draw(random);
    let gap = random.pick(&[30, 60, 60, 120, 300]) * SECOND;
    let rows = 10 + random.below(200);
    let start = PRESENT + random.count(0, PRESENT / 10);
    let table = Table::even(&orbit, start, gap, rows);
    over(random, orbit, table)
}

/// The same with an uneven table.
pub fn overhead_unevenly(random: &mut Random) -> Call {
    let orbit = Orbit::draw(random);
    let gap = random.pick(&[30, 60, 120, 300]) * SECOND;
    let rows = 10 + random.below(200);
    let start = random.count(-PRESENT, PRESENT);
    let table = Table::uneven(random, &orbit, start, gap, rows);
    over(random, orbit, table)
}

/// An observer near the ground track, and an instant up to an hour from the satellite's passing.
pub fn over(random: &mut Random, orbit: Orbit, table: Table) -> Call {
    let span = table.instants[table.instants.len() - 1] - table.instants[0];
    let passing = random.count(0, span);
    let observer = orbit.observer(random, passing as f64 / SECOND as f64);
    let instant = table.instants[0] + passing + random.count(-3600, 3600) * SECOND;
    Call {
        table,
        observer,
        instant: instant + random.count(-SECOND, SECOND),
        ..Call::default()
    }
}

/// A table of any spacing and any observer: refused windows, NaN, equal ranges.
pub fn any_table(random: &mut Random) -> Call {
    let spacing = random.pick(&SPACINGS);
    let table = tables::draw(random, spacing);
    by(random, table)
}

/// This table, any observer, and one of the instants asked of it.
pub fn by(random: &mut Random, table: Table) -> Call {
    let instants = tables::asked(random, &table);
    let resting = [0, 1, 2].map(|axis| table.positions[axis]);
    let elsewhere = tables::place(random);
    Call {
        observer: random.pick(&[resting, elsewhere, elsewhere]),
        instant: random.pick(&instants),
        table,
        ..Call::default()
    }
}

/// So far from a table of nanoseconds about 1970 that squared ranges overflow, or all but do.
pub fn overflowing(random: &mut Random) -> Call {
    let close = random.pick(&[1, 2, 30]);
    let instants = (-5..=5 + random.count(0, 20)).map(|k| k * close);
    let table = Table::of(&Orbit::draw(random), instants.collect());
    let far = random.count(0, INSTANT_LIMIT) >> random.below(30);
    Call {
        table,
        observer: tables::place(random),
        instant: random.pick(&[far, -far]),
        ..Call::default()
    }
}
