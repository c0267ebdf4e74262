//! Tolerances other than the Rust's, tables whose gaps are off by just about one of them, and by how much the gaps of a window are off.

use super::doubles::{neighbours, power_of_two};
use super::integers::INSTANT_LIMIT;
use super::orbits::Orbit;
use super::passes::{self, Scene};
use super::random::Random;
use super::tables::{self, PRESENT, SECOND, Table};
use crate::calls::Call;
use std::array::from_fn;

/// The tolerance that the gaps of no table come near.
pub const OUT_OF_REACH: f64 = 1e300;

/// The tolerances.
pub fn values() -> [f64; 8] {
    let least = power_of_two(-1074);
    [0.0, -0.0, 1e-9, 0.001, 0.5, 30.0, OUT_OF_REACH, least]
}

/// How much more or less than a tolerance the gaps are off, in nanoseconds.
const BESIDE: [i64; 13] = [0, 0, 0, 1, -1, 2, -2, 10, -10, 100, -100, 500, -500];
const MOST_BESIDE: i64 = 500;

/// The gaps of a table are off by this at the most, so that its rows stay within the range.
const FARTHEST_OFF: i64 = INSTANT_LIMIT / 100;

/// Those of a table by which a satellite is heard are off by this at the most, and longer than they must be by so many seconds.
const HEARD_OFF: i64 = 30 * SECOND;
const HEARD_GAP: i64 = 20;

/// The nanoseconds nearest a tolerance, up to a limit.
fn nanoseconds(tolerance: f64, limit: i64) -> i64 {
    let nearest = (tolerance * 1e9).round() as i64;
    nearest.min(limit)
}

/// The least gap of rows that rise though two neighbours are moved by just about so many nanoseconds, to each other.
fn least_gap(off: i64) -> i64 {
    2 * (off + MOST_BESIDE) + 1
}

/// A gap of whole seconds that is longer by more than so many seconds, and up to a minute more.
fn longer_gap(random: &mut Random, gap: i64, seconds: i64) -> i64 {
    (gap / SECOND + 1 + seconds + random.count(0, 60)) * SECOND
}

/// The offsets of rows whose gaps are off by just about so many nanoseconds: some rows are moved by that, or every ninth gap is so much longer that it differs
/// by that from the mean.
fn offsets(random: &mut Random, off: i64, gap: i64, rows: usize) -> Vec<i64> {
    let near = off + random.pick(&BESIDE);
    if random.one_in(3) {
        let ninth = random.below(9);
        return tables::with_longer_gaps(rows, gap, gap + near * 9 / 8, ninth);
    }
    let even = (0..rows as i64).map(|k| k * gap);
    even.map(|offset| offset + random.pick(&[0, 0, 0, 0, 0, 0, 0, near, -near]))
        .collect()
}

/// A table whose gaps are off by just about this tolerance: near 1970, where the seconds' doubles tell nanoseconds, or anywhere.
pub fn table(random: &mut Random, tolerance: f64) -> Table {
    let off = nanoseconds(tolerance, FARTHEST_OFF);
    let rows = 10 + random.below(15);
    let least = least_gap(off);
    let whole = longer_gap(random, least, 0);
    let gap = random.pick(&[least, whole, whole]);
    let offsets = offsets(random, off, gap, rows);
    let instants = if random.one_in(2) {
        let early = random.pick(&[0, 0, 1, 5]);
        let start = -offsets[early];
        offsets.iter().map(|n| start + n).collect()
    } else {
        tables::placed(random, &offsets)
    };
    tables::at(random, instants)
}

/// A low satellite that is heard by so many samples without noise, by such a table of our days.
pub fn heard(random: &mut Random, tolerance: f64, rows: usize, samples: usize) -> Call {
    let off = nanoseconds(tolerance, HEARD_OFF);
    let start = PRESENT + random.count(0, PRESENT / 10);
    let gap = longer_gap(random, least_gap(off), HEARD_GAP);
    let offsets = offsets(random, off, gap, rows);
    let orbit = Orbit::low(random);
    let table = Table::of(&orbit, offsets.iter().map(|n| start + n).collect());
    let scene = Scene::of(random, &orbit, table);
    passes::known_in(random, scene, samples).0.at(tolerance)
}

/// By how many seconds each gap of the window about an instant is off the mean gap, as document 01 has it.
fn deviations(table: &Table, instant: i64) -> [f64; 9] {
    let early = table.instants.iter().filter(|&&n| n <= instant).count();
    let start = tables::window_start(early.saturating_sub(1), table.instants.len());
    let seconds: [f64; 10] = from_fn(|k| table.instants[start + k] as f64 * 1e-9);
    let mean = (seconds[9] - seconds[0]) / 9.0;
    from_fn(|k| (seconds[k + 1] - seconds[k] - mean).abs())
}

/// The largest of them: a tolerance below it makes the window uneven.
pub fn deviation(table: &Table, instant: i64) -> f64 {
    deviations(table, instant).into_iter().fold(0.0, f64::max)
}

/// The largest deviation with the doubles just below and above it, as tolerances; zeros of both signs and the least double where it is zero.
pub fn about_the_deviation(table: &Table, instant: i64) -> [f64; 3] {
    let deviation = deviation(table, instant);
    if deviation == 0.0 {
        return [-0.0, 0.0, power_of_two(-1074)];
    }
    neighbours(deviation)
}
