//! Tables of coordinates: every spacing, at every epoch, with every sort of position; and the instants asked of them.

use super::doubles::{neighbours, subnormal, with_any_sign};
use super::integers::INSTANT_LIMIT;
use super::matrices;
use super::orbits::Orbit;
use super::random::Random;
use crate::checks::{COORDINATES, FARTHEST, NEAREST};
use crate::reference;

/// Nanoseconds in a second.
pub const SECOND: i64 = 1_000_000_000;

/// An instant of our days.
pub const PRESENT: i64 = 1_750_000_000 * SECOND;

/// Instants in nanoseconds since 1970, and three metres for each.
#[derive(Clone, Default)]
pub struct Table {
    pub instants: Vec<i64>,
    pub positions: Vec<f64>,
}

impl Table {
    /// The table of a satellite at these instants; its orbit begins at the first.
    pub fn of(orbit: &Orbit, instants: Vec<i64>) -> Self {
        let positions = along(orbit, &instants);
        Table {
            instants,
            positions,
        }
    }

    /// Rows with the same gap between them.
    pub fn even(orbit: &Orbit, start: i64, gap: i64, rows: usize) -> Self {
        let instants = (0..rows as i64).map(|k| start + k * gap);
        Table::of(orbit, instants.collect())
    }

    /// The same, but each row moved by up to a quarter of the gap.
    pub fn uneven(random: &mut Random, orbit: &Orbit, start: i64, gap: i64, rows: usize) -> Self {
        let instants = (0..rows as i64).map(|k| start + k * gap + random.count(-gap / 4, gap / 4));
        Table::of(orbit, instants.collect())
    }
}

/// Draws the offsets of so many rows, in nanoseconds; they rise.
pub type Spacing = fn(&mut Random, usize) -> Vec<i64>;

/// The ways of spacing.
pub const SPACINGS: [Spacing; 10] = [
    even,
    nearly_even,
    at_one_second,
    one_gap_longer,
    jittered,
    two_rates,
    wild,
    clustered,
    nanoseconds,
    far_apart,
];

/// Draws the positions at these instants, all within the checks.
type Positions = fn(&mut Random, &[i64]) -> Vec<f64>;

/// The sorts of position.
const POSITIONS: [Positions; 7] = [
    circular,
    circular,
    circular,
    anywhere,
    at_the_limits,
    resting,
    with_zeros,
];

/// A table of this spacing; most are short.
pub fn draw(random: &mut Random, spacing: Spacing) -> Table {
    let rows = rows(random);
    of_rows(random, spacing, rows)
}

/// A table of this spacing with so many rows.
pub fn of_rows(random: &mut Random, spacing: Spacing, rows: usize) -> Table {
    let offsets = spacing(random, rows);
    let instants = placed(random, &offsets);
    at(random, instants)
}

/// A table of any sort of position at these instants.
pub(super) fn at(random: &mut Random, instants: Vec<i64>) -> Table {
    let positions = random.pick(&POSITIONS)(random, &instants);
    Table {
        instants,
        positions,
    }
}

/// The first row of the window about a row: "Start is 0 if idx < 4, length − 10 if idx + 5 ≥ length, else idx − 4".
pub fn window_start(idx: usize, length: usize) -> usize {
    match idx {
        0..4 => 0,
        _ if idx + 5 >= length => length - 10,
        _ => idx - 4,
    }
}

/// Twelve instants: on rows, beside them, where the window changes, before and after the table, and at the ends of the range.
pub fn asked(random: &mut Random, table: &Table) -> [i64; 12] {
    let instants = &table.instants;
    let n = instants.len();
    let row = instants[random.below(n)];
    let change = instants[random.pick(&[3, 4, 5, n - 6, n - 5, n - 4])];
    let (first, last) = (instants[0], instants[n - 1]);
    let k = random.below(n - 1);
    let span = last - first;
    [
        row,
        row - 1,
        row + 1,
        random.count(instants[k], instants[k + 1]),
        change,
        change - 1,
        random.pick(&[first - 1, first, last, last + 1]),
        first.saturating_sub(random.count(0, span)),
        last.saturating_add(random.count(0, span)),
        random.count(first, last),
        random.count(-INSTANT_LIMIT, INSTANT_LIMIT),
        random.pick(&[-INSTANT_LIMIT, INSTANT_LIMIT, 0, -1]),
    ]
    .map(|n| n.clamp(-INSTANT_LIMIT, INSTANT_LIMIT))
}

/// Instants whose index is this row: its own, any one before the next row, and the last one before the next; behind the last row as far as the table is long.
/// With the first row go three instants before the table, whose index is 0 too. The table must lie that far within the limits.
pub fn asked_at(random: &mut Random, table: &Table, row: usize) -> Vec<i64> {
    let instants = &table.instants;
    let (first, last) = (instants[0], instants[instants.len() - 1]);
    let span = last - first;
    let next = instants.get(row + 1).map_or(last + span, |&next| next);
    let any = random.count(instants[row], next - 1);
    let mut asked = vec![instants[row], any, next - 1];
    if row == 0 {
        asked.extend([
            first - span,
            random.count(first - span, first - 1),
            first - 1,
        ]);
    }
    asked
}

/// How many rows: mostly few, now and then as many as there may be.
fn rows(random: &mut Random) -> usize {
    let [least, greatest] = COORDINATES;
    match random.below(50) {
        0 => greatest,
        1 => least + random.below(greatest - least),
        2..12 => least,
        _ => least + random.below(50),
    }
}

/// The offsets put at an epoch: our days, about 1970, long before it, and against either end of the range.
pub(super) fn placed(random: &mut Random, offsets: &[i64]) -> Vec<i64> {
    let first = offsets[0];
    let span = offsets[offsets.len() - 1] - first;
    let earliest = -INSTANT_LIMIT;
    let latest = INSTANT_LIMIT - span;
    let start = match random.below(7) {
        0 => earliest,
        1 => latest,
        2 => random.count(earliest, latest),
        3 => -random.count(0, span),
        4 => -PRESENT / 5 - random.count(0, PRESENT / 5),
        _ => PRESENT + random.count(-PRESENT / 10, PRESENT / 10),
    };
    let start = start.clamp(earliest, latest);
    offsets.iter().map(|n| start + (n - first)).collect()
}

/// The offsets that these gaps make.
fn summed(rows: usize, mut gap: impl FnMut() -> i64) -> Vec<i64> {
    let mut offset = 0;
    let mut offsets = vec![0];
    for _ in 1..rows {
        offset += gap();
        offsets.push(offset);
    }
    offsets
}

/// A gap between two rows as tables of satellites have it.
fn usual_gap(random: &mut Random) -> i64 {
    random.pick(&[10, 30, 60, 60, 300, 900]) * SECOND
}

/// Always the same gap.
fn even(random: &mut Random, rows: usize) -> Vec<i64> {
    let odd = random.count(1, 1000 * SECOND);
    let usual = usual_gap(random);
    let gap = random.pick(&[usual, usual, odd]);
    summed(rows, || gap)
}

/// Each row moved, but no gap by more than the second that an even window of the Rust's allows.
fn nearly_even(random: &mut Random, rows: usize) -> Vec<i64> {
    moved(random, rows, |random, _| {
        random.count(-SECOND * 2 / 5, SECOND * 2 / 5)
    })
}

/// Some rows moved by just about the second that an even window of the Rust's allows.
fn at_one_second(random: &mut Random, rows: usize) -> Vec<i64> {
    moved(random, rows, |random, _| {
        let near = SECOND + random.pick(&[0, 0, 1, -1, 100, -100, 500, -500, 5000, -5000]);
        random.pick(&[0, 0, 0, 0, 0, 0, 0, 0, near, -near])
    })
}

/// In every window one gap is longer than the mean by the second that an even window of the Rust's allows, or by just about it.
fn one_gap_longer(random: &mut Random, rows: usize) -> Vec<i64> {
    let usual = usual_gap(random);
    let odd = random.count(SECOND, usual);
    let gap = random.pick(&[usual, odd]);
    let longer = gap + SECOND * 9 / 8 + random.pick(&[0, 0, 0, 1, -1, 100]);
    with_longer_gaps(rows, gap, longer, random.below(9))
}

/// Always the same gap, but every ninth one is longer; the first longer one is number 9 − `before`.
pub(super) fn with_longer_gaps(rows: usize, gap: i64, longer: i64, before: usize) -> Vec<i64> {
    let mut k = before;
    summed(rows, || {
        k += 1;
        if k.is_multiple_of(9) { longer } else { gap }
    })
}

/// Each row moved by up to a quarter of a gap.
fn jittered(random: &mut Random, rows: usize) -> Vec<i64> {
    moved(random, rows, |random, gap| random.count(-gap / 4, gap / 4))
}

/// Even rows, each moved as told.
fn moved(
    random: &mut Random,
    rows: usize,
    mut step: impl FnMut(&mut Random, i64) -> i64,
) -> Vec<i64> {
    let gap = usual_gap(random);
    let even = (0..rows as i64).map(|k| k * gap);
    even.map(|offset| offset + step(random, gap)).collect()
}

/// One gap up to some row, another one from there.
fn two_rates(random: &mut Random, rows: usize) -> Vec<i64> {
    let rates = [1, 400, SECOND, 10 * SECOND, 60 * SECOND, 300 * SECOND];
    let (early, late) = (random.pick(&rates), random.pick(&rates));
    let mut left = random.below(rows);
    summed(rows, || {
        left = left.saturating_sub(1);
        if left > 0 { early } else { late }
    })
}

/// Gaps of any magnitude, as long as the table stays within a third of the range.
fn wild(random: &mut Random, rows: usize) -> Vec<i64> {
    let widest = INSTANT_LIMIT / 2 / rows as i64;
    summed(rows, || {
        1 + (random.bits() >> 1 >> random.below(62)) as i64 % widest
    })
}

/// Two to five rows within a microsecond, then none for some time.
fn clustered(random: &mut Random, rows: usize) -> Vec<i64> {
    let mut left = 0;
    let close = random.pick(&[1, 1, 20, 300, 1000]);
    summed(rows, || {
        if left == 0 {
            left = 1 + random.below(4);
            return random.count(2, 1000) * SECOND;
        }
        left -= 1;
        random.count(1, close)
    })
}

/// A nanosecond or a few from row to row: in our days the ten times of a window are one double.
fn nanoseconds(random: &mut Random, rows: usize) -> Vec<i64> {
    let close = random.pick(&[1, 1, 3, 30, 200]);
    summed(rows, || random.count(1, close))
}

/// The table fills most of the range.
fn far_apart(random: &mut Random, rows: usize) -> Vec<i64> {
    let widest = INSTANT_LIMIT / rows as i64 * 2 - 1;
    let gap = random.count(widest / 2, widest);
    let even = random.one_in(2);
    summed(rows, || {
        if even {
            gap
        } else {
            random.count(widest / 2, widest)
        }
    })
}

/// The positions along an orbit that begins at the first instant.
fn along(orbit: &Orbit, instants: &[i64]) -> Vec<f64> {
    let seconds = instants
        .iter()
        .map(|&n| (n - instants[0]) as f64 / SECOND as f64);
    seconds.flat_map(|t| orbit.position(t)).collect()
}

/// A satellite's positions.
fn circular(random: &mut Random, instants: &[i64]) -> Vec<f64> {
    along(&Orbit::draw(random), instants)
}

/// Places anywhere within the limits, each drawn anew.
fn anywhere(random: &mut Random, instants: &[i64]) -> Vec<f64> {
    let places = instants.iter().flat_map(|_| place_anywhere(random));
    places.collect()
}

/// Components at the limits, beside them, or next to nothing.
fn at_the_limits(random: &mut Random, instants: &[i64]) -> Vec<f64> {
    let places = instants.iter().flat_map(|_| place_at_the_limits(random));
    places.collect()
}

/// The same place always.
fn resting(random: &mut Random, instants: &[i64]) -> Vec<f64> {
    let place = place(random);
    instants.iter().flat_map(|_| place).collect()
}

/// One axis is zero, with such signs that each product in the sum of one coefficient of an even window is a negative zero.
fn with_zeros(random: &mut Random, instants: &[i64]) -> Vec<f64> {
    let inverse = reference::inverse(&matrices::nodes(matrices::even_node));
    let row = inverse.expect("the even nodes have an inverse")[random.below(10)];
    let axis = random.below(3);
    let places = (0..instants.len()).flat_map(|k| {
        let mut place = place_anywhere(random).map(|x| x.abs().max(NEAREST));
        place[axis] = -0.0 * row[k % 10];
        place
    });
    places.collect()
}

/// A place that passes the checks.
pub fn place(random: &mut Random) -> [f64; 3] {
    if random.one_in(2) {
        place_anywhere(random)
    } else {
        place_at_the_limits(random)
    }
}

/// A place anywhere within the limits.
fn place_anywhere(random: &mut Random) -> [f64; 3] {
    let mut place = [(); 3].map(|_| random.between(-FARTHEST, FARTHEST));
    let far = random.between(NEAREST, FARTHEST);
    place[random.below(3)] = with_any_sign(random, far);
    place
}

/// A place with components at the limits, beside them, or next to nothing.
fn place_at_the_limits(random: &mut Random) -> [f64; 3] {
    let [below_nearest, nearest, above_nearest] = neighbours(NEAREST);
    let [below_farthest, farthest, _] = neighbours(FARTHEST);
    let large = [nearest, above_nearest, below_farthest, farthest];
    let small = [0.0, 1.0, below_nearest, subnormal(random)];
    let mut place = [(); 3].map(|_| {
        let chosen = [random.pick(&large), random.pick(&small)];
        let component = random.pick(&chosen);
        with_any_sign(random, component)
    });
    let far = random.pick(&large);
    place[random.below(3)] = with_any_sign(random, far);
    place
}
