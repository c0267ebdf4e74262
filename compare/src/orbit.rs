//! The tabulated orbit: model, evaluation, propagation and closest approach.

mod ends;
mod tolerances;

use crate::driver::{Ours, PLACES, compare as compare_call, compare_paper, compare_refusals};
use crate::ours::orbit as ours;
use crate::tally::{Tally, Total};
use crate::timing::{Row, row, row_of_ours, spacing};
use chrono::{DateTime, Utc};
use compare::answers::{self, Answer};
use compare::calls::{Call, Entry};
use compare::checks::COORDINATES;
use compare::inputs::closest;
use compare::inputs::integers::INSTANT_LIMIT;
use compare::inputs::orbits::Orbit;
use compare::inputs::random::Random;
use compare::inputs::tables::{self, PRESENT, SECOND, SPACINGS, Spacing, Table};
use compare::inputs::{doubles, polynomials};
use compare::reference::{self, OrbitModel, TOLERANCE, TabulatedOrbit};
use compare::words::Word;
use std::hint::black_box;

/// How many tables of each spacing; each is asked for twelve instants.
const TABLES: usize = 400;

/// How many rows the tables have of which every window is compared: the fewest, the most, and some between.
const WINDOWED: [usize; 6] = [COORDINATES[0], 11, 14, 15, 20, COORDINATES[1]];

/// How many models that no table made.
const MODELS: usize = 20_000;

/// How many closest approaches of each kind.
const CLOSEST: usize = 1_500;

/// How many different instants or calls are timed.
const TIMED: usize = 64;

/// Compares the four entries.
pub fn compare(total: &mut Total) {
    compare_tables(total);
    compare_windows(total);
    compare_models(total);
    compare_closest(total);
    ends::compare(total);
    tolerances::compare(total);
    for (entry, ours) in [
        (Entry::GetChebyshevModel, ours::model as Ours),
        (Entry::Evaluate, ours::evaluation),
        (Entry::PropagateEcef, ours::propagation),
        (Entry::FindPcaTime, ours::closest),
    ] {
        compare_paper(total, entry, ours);
        compare_refusals(total, entry, ours);
    }
}

/// Model and propagation by every spacing of tables, and the evaluation of the models.
fn compare_tables(total: &mut Total) {
    let mut models = Tally::new("get_chebyshev_model");
    let mut propagations = Tally::new("propagate_ecef");
    let mut evaluations = Tally::new("evaluate (models of tables)");
    let mut random = Random::new(30);
    for spacing in SPACINGS {
        for _ in 0..TABLES {
            for call in calls_of_a_table(&mut random, spacing) {
                let entry = Entry::GetChebyshevModel;
                let model = compare_call(&mut models, entry, ours::model, &call);
                let entry = Entry::PropagateEcef;
                compare_call(&mut propagations, entry, ours::propagation, &call);
                if let Some(call) = by_model(&mut random, &call, &model) {
                    let entry = Entry::Evaluate;
                    compare_call(&mut evaluations, entry, ours::evaluation, &call);
                }
            }
        }
    }
    models.finish(total);
    propagations.must_have_noted(&PLACES);
    propagations.finish(total);
    evaluations.finish(total);
}

/// Model and propagation at every row of even and uneven tables.
fn compare_windows(total: &mut Total) {
    let mut tallies = [Entry::GetChebyshevModel, Entry::PropagateEcef]
        .map(|entry| Tally::new(format!("{}, the window at every row", entry.name())));
    let mut random = Random::new(38);
    for rows in WINDOWED {
        for uneven in [false, true] {
            let table = minutes_apart(&mut random, rows, uneven);
            compare_rows(&mut tallies, &mut random, table);
        }
    }
    for tally in tallies {
        tally.finish(total);
    }
}

/// The same at every row of one table; each model must have the end times of the window that the paper names.
fn compare_rows([models, propagations]: &mut [Tally; 2], random: &mut Random, table: Table) {
    let rows = table.instants.len();
    let mut call = Call {
        table,
        ..Call::default()
    };
    for row in 0..rows {
        let ends = paper_ends(&call.table, row);
        for instant in tables::asked_at(random, &call.table, row) {
            call.instant = instant;
            let model = compare_call(models, Entry::GetChebyshevModel, ours::model, &call);
            assert!(model.results.starts_with(&ends), "row {row} of {rows}");
            models.note(format!("{rows} rows"));
            compare_call(propagations, Entry::PropagateEcef, ours::propagation, &call);
            propagations.note(format!("{rows} rows"));
        }
    }
}

/// The end times of the window about a row.
fn paper_ends(table: &Table, idx: usize) -> Vec<Word> {
    let start = tables::window_start(idx, table.instants.len());
    let seconds = [start, start + 9].map(|k| table.instants[k] as f64 * 1e-9);
    answers::doubles(&seconds)
}

/// A table of this spacing with each of the instants asked of it.
fn calls_of_a_table(random: &mut Random, spacing: Spacing) -> [Call; 12] {
    let table = tables::draw(random, spacing);
    tables::asked(random, &table).map(|instant| Call {
        table: table.clone(),
        instant,
        ..Call::default()
    })
}

/// The evaluation of the model that was answered, if there is one: at the same instant or at another.
fn by_model(random: &mut Random, call: &Call, model: &Answer) -> Option<Call> {
    let numbers = model.results.iter().map(|word| f64::from_bits(word.bits()));
    let numbers: Vec<f64> = numbers.collect();
    Some(Call {
        model: numbers.try_into().ok()?,
        instant: random.pick(&[call.instant, call.instant / 2, -call.instant]),
        ..Call::default()
    })
}

/// The evaluation of models that no table made: any numbers, and ordinary ones with special end times.
fn compare_models(total: &mut Total) {
    let mut tally = Tally::new("evaluate (any model)");
    let mut random = Random::new(31);
    for _ in 0..MODELS {
        let draw = random.pick(&polynomials::KINDS);
        let mut call = Call {
            instant: random.count(-INSTANT_LIMIT, INSTANT_LIMIT) >> random.below(62),
            ..Call::default()
        };
        for row in call.model[2..].as_chunks_mut::<10>().0 {
            *row = draw(&mut random).coefficients;
        }
        call.model[..2].copy_from_slice(&end_times(&mut random, call.instant));
        compare_call(&mut tally, Entry::Evaluate, ours::evaluation, &call);
    }
    tally.finish(total);
}

/// Two end times about an instant, or special ones.
fn end_times(random: &mut Random, instant: i64) -> [f64; 2] {
    let seconds = instant as f64 * 1e-9;
    let special = doubles::special();
    [(); 2].map(|_| {
        let near = seconds + random.between(-1e4, 1e4);
        let strange = random.pick(&special);
        random.pick(&[near, near, near, near, near, seconds, strange])
    })
}

/// The closest approach of every kind.
fn compare_closest(total: &mut Total) {
    let mut tally = Tally::new("find_pca_time");
    let mut random = Random::new(32);
    for draw in closest::KINDS {
        for _ in 0..CLOSEST {
            let call = draw(&mut random);
            let expected = compare_call(&mut tally, Entry::FindPcaTime, ours::closest, &call);
            if expected.results[0].bits() == call.instant as u64 {
                tally.note("at the given instant");
            }
        }
    }
    tally.must_have_noted(&PLACES);
    tally.finish(total);
}

/// Times the entries: short and long tables, even and uneven; and the checks of a propagation apart.
pub fn time() -> Vec<Row> {
    let mut rows = Vec::new();
    rows.push(time_model());
    rows.push(time_evaluation());
    let [least, greatest] = COORDINATES;
    let lengths = [least, 180, greatest];
    for uneven in [false, true] {
        rows.extend(lengths.map(|length| time_propagation(length, uneven)));
    }
    rows.extend(lengths.map(time_checks));
    rows.extend([false, true].map(time_closest));
    rows
}

/// A table of so many rows, a minute apart, or about a minute where it is uneven.
fn minutes_apart(random: &mut Random, rows: usize, uneven: bool) -> Table {
    let orbit = Orbit::low(random);
    let gap = 60 * SECOND;
    if uneven {
        Table::uneven(random, &orbit, PRESENT, gap, rows)
    } else {
        Table::even(&orbit, PRESENT, gap, rows)
    }
}

/// Instants in a table, as both sides take them.
fn timed_instants(random: &mut Random, table: &Table) -> Vec<(i64, DateTime<Utc>)> {
    let (first, last) = (table.instants[0], table.instants[table.instants.len() - 1]);
    let instants = (0..TIMED).map(|_| random.count(first, last));
    instants.map(|n| (n, reference::instant(n))).collect()
}

/// The model by a short even table.
fn time_model() -> Row {
    let mut random = Random::new(33);
    let table = minutes_apart(&mut random, 10, false);
    let orbit = reference::orbit(&table);
    let instants = timed_instants(&mut random, &table);
    let mut model = [0.0; 32];
    row(
        "get_chebyshev_model, 10 rows even",
        &instants,
        |&(n, _)| ours::write_model(&table, n, TOLERANCE, black_box(&mut model)),
        |&(_, instant)| reference::model(&orbit, instant),
    )
}

/// The evaluation of one model.
fn time_evaluation() -> Row {
    let mut random = Random::new(34);
    let table = minutes_apart(&mut random, 10, false);
    let instants = timed_instants(&mut random, &table);
    let model = reference::model(&reference::orbit(&table), instants[0].1);
    let model = model.expect("an even table has a model");
    let numbers = reference::numbers(&model);
    let mut motion = [0.0; 6];
    row(
        "evaluate",
        &instants,
        |&(n, _)| ours::write_evaluation(&numbers, n, black_box(&mut motion)),
        |&(_, instant)| reference::evaluate(&model, instant),
    )
}

/// The propagation, as it is called: ours with its checks of the whole table.
fn time_propagation(rows: usize, uneven: bool) -> Row {
    let name = format!("propagate_ecef, {rows} rows {}", spacing(uneven));
    let mut random = Random::new(35);
    let table = minutes_apart(&mut random, rows, uneven);
    let orbit = reference::orbit(&table);
    let instants = timed_instants(&mut random, &table);
    let (mut motion, mut place) = ([0.0; 6], 0);
    row(
        name,
        &instants,
        |&(n, _)| {
            let places = black_box((&mut motion, &mut place));
            ours::write_propagation(&table, n, TOLERANCE, places.0, places.1)
        },
        |&(_, instant)| orbit.propagate(instant),
    )
}

/// A table whose very last component is wrong: all checks are made, and nothing else.
fn time_checks(rows: usize) -> Row {
    let name = format!("its checks alone, {rows} rows");
    let mut table = minutes_apart(&mut Random::new(36), rows, false);
    *table.positions.last_mut().expect("a table has rows") = f64::NAN;
    let (mut motion, mut place) = ([0.0; 6], 0);
    row_of_ours(name, &[PRESENT], |&n| {
        let places = black_box((&mut motion, &mut place));
        ours::write_propagation(&table, n, TOLERANCE, places.0, places.1)
    })
}

/// The closest approach of satellites that pass overhead.
fn time_closest(uneven: bool) -> Row {
    let name = format!("find_pca_time, 180 rows {}", spacing(uneven));
    let mut random = Random::new(37);
    let draw = [closest::overhead, closest::overhead_unevenly][usize::from(uneven)];
    let calls: Vec<(Call, OrbitModel)> = (0..TIMED)
        .map(|_| draw(&mut random))
        .map(|call| (call.clone(), reference::orbit(&call.table)))
        .collect();
    let (mut found, mut place) = (0, 0);
    row(
        name,
        &calls,
        |(call, _)| {
            let places = black_box((&mut found, &mut place));
            ours::write_closest(call, places.0, places.1)
        },
        |(call, orbit)| orbit.closest(call.observer, reference::instant(call.instant)),
    )
}
