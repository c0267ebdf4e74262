//! The cases of the tabulated orbit.

use crate::{faulty, of};
use compare::calls::{Call, Entry};
use compare::inputs::doubles::power_of_two;
use compare::inputs::faults::sound;
use compare::inputs::integers::INSTANT_LIMIT;
use compare::inputs::orbits::Orbit;
use compare::inputs::outside;
use compare::inputs::random::Random;
use compare::inputs::tables::{self, PRESENT, SECOND, SPACINGS, Spacing, Table};
use compare::inputs::{closest, polynomials};
use compare::reference;

/// The cases of all four entries.
pub fn cases() -> Vec<(Entry, Call)> {
    let mut random = Random::new(70);
    let mut list = Vec::new();
    for entry in [Entry::GetChebyshevModel, Entry::PropagateEcef] {
        list.extend(of(entry, by_tables(&mut random)));
        list.extend(faulty::calls(&mut random, entry, true));
    }
    list.extend(at_the_ends().map(|call| (Entry::PropagateEcef, call)));
    list.extend(of(Entry::Evaluate, by_models(&mut random)));
    let entry = Entry::FindPcaTime;
    list.extend(of(entry, closest_approaches(&mut random)));
    list.extend(faulty::calls(&mut random, entry, true));
    list.extend(closest_about_the_ends().map(|call| (entry, call)));
    list
}

/// Tables with an instant: edges, then one of each spacing.
fn by_tables(random: &mut Random) -> Vec<Call> {
    let mut list = vec![with_equal_times(), with_two_close_rows()];
    list.extend([-INSTANT_LIMIT, INSTANT_LIMIT].map(|instant| Call {
        instant,
        ..sound(10, 1)
    }));
    list.extend(SPACINGS.map(|spacing| small(random, spacing)));
    list
}

/// The first and the last instant of a table, each with those a nanosecond beside it.
fn at_the_ends() -> [Call; 6] {
    let sound = sound(10, 1);
    outside::at_the_ends(&sound.table).map(|instant| Call {
        instant,
        ..sound.clone()
    })
}

/// A table of nanoseconds of our days: its ten times are one double.
fn with_equal_times() -> Call {
    let mut call = sound(10, 1);
    call.table.instants = (0..10).map(|k| PRESENT + k).collect();
    call
}

/// Two rows of the window are a nanosecond apart: it has no inverse.
fn with_two_close_rows() -> Call {
    let mut call = sound(12, 1);
    call.table.instants[6] = call.table.instants[5] + 1;
    call
}

/// A short table of this spacing, and one of the instants asked of it.
fn small(random: &mut Random, spacing: Spacing) -> Call {
    let rows = 10 + random.below(6);
    let table = tables::of_rows(random, spacing, rows);
    let instants = tables::asked(random, &table);
    Call {
        instant: random.pick(&instants),
        observer: tables::place(random),
        table,
        ..Call::default()
    }
}

/// Models of tables at instants inside and outside their windows, refused instants, and strange models.
fn by_models(random: &mut Random) -> Vec<Call> {
    let sound = sound(10, 1);
    let orbit = reference::orbit(&sound.table);
    let model = reference::model(&orbit, reference::instant(sound.instant));
    let model = reference::numbers(&model.expect("an even table has a model"));
    let limit = INSTANT_LIMIT;
    let mut instants = vec![PRESENT, sound.instant, PRESENT + 540 * SECOND];
    instants.extend([PRESENT - 3600 * SECOND, 0, -1, limit, -limit]);
    instants.extend([limit + 1, -limit - 1, i64::MAX, i64::MIN]);
    let calls = instants.into_iter().map(|instant| Call {
        model,
        instant,
        ..Call::default()
    });
    let mut list: Vec<Call> = calls.collect();
    let changes: [fn(&mut [f64; 32]); 4] = [
        |model| model[1] = model[0],
        |model| model[0] = f64::NAN,
        |model| model[21] = f64::INFINITY,
        |model| model[2..].fill(-0.0),
    ];
    list.extend(changes.map(|change| {
        let mut call = Call {
            model,
            ..sound.clone()
        };
        change(&mut call.model);
        call
    }));
    list.extend((0..6).map(|_| strange_model(random)));
    list
}

/// A model whose coefficients are of any kind, its end times about the instant.
fn strange_model(random: &mut Random) -> Call {
    let instant = random.count(-INSTANT_LIMIT, INSTANT_LIMIT) >> random.below(40);
    let seconds = instant as f64 * 1e-9;
    let mut call = Call {
        instant,
        ..Call::default()
    };
    call.model[0] = seconds - random.between(0.0, 1e3);
    call.model[1] = seconds + random.between(0.0, 1e3) * power_of_two(random.whole(-8, 8));
    for row in call.model[2..].as_chunks_mut::<10>().0 {
        *row = random.pick(&polynomials::KINDS)(random).coefficients;
    }
    call
}

/// Satellites over an observer, tables in which nothing is found, equal ranges, and one of each spacing.
fn closest_approaches(random: &mut Random) -> Vec<Call> {
    let uneven = [false, false, false, true, true, true];
    let mut list: Vec<Call> = uneven.map(|uneven| overhead(random, uneven)).into();
    list.extend([with_equal_times(), with_two_close_rows(), at_rest()]);
    list.extend((0..2).map(|_| closest::overflowing(random)));
    list.extend(SPACINGS.map(|spacing| small(random, spacing)));
    list
}

/// A satellite over an observer, in a short table.
fn overhead(random: &mut Random, uneven: bool) -> Call {
    let orbit = Orbit::draw(random);
    let rows = 12 + random.below(8);
    let gap = 300 * SECOND;
    let table = if uneven {
        Table::uneven(random, &orbit, PRESENT, gap, rows)
    } else {
        Table::even(&orbit, PRESENT, gap, rows)
    };
    closest::over(random, orbit, table)
}

/// A satellite that rests far from the observer: many squared ranges are the same double.
fn at_rest() -> Call {
    let mut call = sound(10, 1);
    let coordinates = call.table.positions.as_chunks_mut::<3>().0;
    coordinates.fill([1e8, -1e8, 1e8]);
    call
}

/// Closest approaches there, and before, within and after a table.
fn closest_about_the_ends() -> [Call; 9] {
    let mut random = Random::new(71);
    let (_, table) = outside::low(&mut random);
    let instants = outside::about_the_ends(&mut random, &table);
    instants.map(|closest| outside::overhead_at(&mut random, table.clone(), closest))
}
