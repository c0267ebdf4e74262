//! Recordings: instants in every order, with every sort of frequency.

use super::doubles;
use super::integers::INSTANT_LIMIT;
use super::random::Random;
use super::tables::{PRESENT, SECOND};
use crate::checks::SAMPLES;

/// Instants in nanoseconds since 1970, and a frequency in hertz for each.
#[derive(Clone, Default)]
pub struct Recording {
    pub instants: Vec<i64>,
    pub frequencies: Vec<f64>,
}

/// Draws so many instants.
pub type Instants = fn(&mut Random, usize) -> Vec<i64>;

/// The orders and places of the instants.
pub const INSTANTS: [Instants; 11] = [
    in_order,
    second_by_second,
    millisecond_by_millisecond,
    reversed,
    shuffled,
    of_few_seconds,
    repeated,
    about_1970,
    at_whole_seconds,
    anywhere,
    at_the_ends,
];

/// Draws a frequency for each of these instants.
pub type Frequencies = fn(&mut Random, &[i64]) -> Vec<f64>;

/// The sorts of frequency.
pub const FREQUENCIES: [Frequencies; 7] = [
    falling,
    ordinary,
    by_steps_of_120,
    small_whole_numbers,
    special,
    huge,
    patterns,
];

/// A recording of these sorts; most are short.
pub fn draw(random: &mut Random, instants: Instants, frequencies: Frequencies) -> Recording {
    let count = count(random);
    of_count(random, instants, frequencies, count)
}

/// A recording of these sorts with so many samples.
pub fn of_count(
    random: &mut Random,
    instants: Instants,
    frequencies: Frequencies,
    count: usize,
) -> Recording {
    let instants = instants(random, count);
    let frequencies = frequencies(random, &instants);
    Recording {
        instants,
        frequencies,
    }
}

/// How many samples: mostly few, now and then as many as there may be.
fn count(random: &mut Random) -> usize {
    match random.below(200) {
        0 => SAMPLES,
        1 => 1 + random.below(SAMPLES),
        2..30 => 1 + random.below(3),
        30..150 => 1 + random.below(40),
        _ => 1 + random.below(200),
    }
}

/// Rising instants of our days, some to the second.
pub fn in_order(random: &mut Random, count: usize) -> Vec<i64> {
    let longest = random.pick(&[SECOND / 20, SECOND / 3, 3 * SECOND]);
    rising(random, count, |random| random.count(1, longest))
}

/// One sample in each second, at the same place in it.
pub fn second_by_second(random: &mut Random, count: usize) -> Vec<i64> {
    rising(random, count, |_| SECOND)
}

/// So close that the times between them are few milliseconds or none.
fn millisecond_by_millisecond(random: &mut Random, count: usize) -> Vec<i64> {
    rising(random, count, |random| {
        random.pick(&[300_000, 450_000, 500_000, 1_000_000, 1_700_000])
    })
}

/// Instants from some start of our days on, each so much after the last.
fn rising(random: &mut Random, count: usize, gap: impl Fn(&mut Random) -> i64) -> Vec<i64> {
    let mut instant = PRESENT + random.count(0, PRESENT / 10);
    let mut instants = Vec::new();
    for _ in 0..count {
        instants.push(instant);
        instant += gap(random);
    }
    instants
}

/// The latest first.
pub fn reversed(random: &mut Random, count: usize) -> Vec<i64> {
    let mut instants = in_order(random, count);
    instants.reverse();
    instants
}

/// In any order.
pub fn shuffled(random: &mut Random, count: usize) -> Vec<i64> {
    let mut instants = in_order(random, count);
    random.shuffle(&mut instants);
    instants
}

/// All in a few seconds, in any order.
pub fn of_few_seconds(random: &mut Random, count: usize) -> Vec<i64> {
    let start = random.pick(&[PRESENT, 0, -SECOND, -PRESENT]);
    let seconds = random.count(1, 4);
    drawn(count, || start + random.count(0, seconds * SECOND - 1))
}

/// Few different instants, each many times.
pub fn repeated(random: &mut Random, count: usize) -> Vec<i64> {
    let few = in_order(random, 1 + count / 4);
    drawn(count, || random.pick(&few))
}

/// On both sides of 1970: just before it is another second than just after it.
pub fn about_1970(random: &mut Random, count: usize) -> Vec<i64> {
    drawn(count, || {
        let near = random.count(-3 * SECOND, 3 * SECOND);
        random.pick(&[
            -1,
            0,
            1,
            -999,
            -1000,
            -SECOND,
            -SECOND - 1,
            1 - SECOND,
            near,
            near,
        ])
    })
}

/// At the first and the last nanosecond and microsecond of seconds of either sign.
fn at_whole_seconds(random: &mut Random, count: usize) -> Vec<i64> {
    let start = random.count(-5, 5);
    drawn(count, || {
        let second = start + random.count(-3, 3);
        second * SECOND + random.pick(&[0, 0, 1, -1, 999, 1000, 1001, -999, -1000, -1001])
    })
}

/// Anywhere in the range.
fn anywhere(random: &mut Random, count: usize) -> Vec<i64> {
    drawn(count, || random.count(-INSTANT_LIMIT, INSTANT_LIMIT))
}

/// In the last or first second of the range.
fn at_the_ends(random: &mut Random, count: usize) -> Vec<i64> {
    let end = random.pick(&[INSTANT_LIMIT, -INSTANT_LIMIT]);
    drawn(count, || {
        let inward = random.count(0, 2 * SECOND) * -end.signum();
        end + random.pick(&[0, inward, inward])
    })
}

/// So many, each drawn.
fn drawn<T>(count: usize, mut draw: impl FnMut() -> T) -> Vec<T> {
    (0..count).map(|_| draw()).collect()
}

/// Falling as those of a satellite that passes, with or without noise.
pub fn falling(random: &mut Random, instants: &[i64]) -> Vec<f64> {
    let centre = random.between(1e8, 1.2e10);
    let swing = random.between(1e2, 3e5);
    let noise = random.pick(&[0.0, 1.0, 50.0]);
    let middle = instants[random.below(instants.len())];
    let passing = instants.iter().map(|&n| {
        let seconds = (n as f64 - middle as f64) / 1e9;
        let steep = seconds / random.pick(&[20.0, 20.0, 21.0]);
        centre - swing * steep / (1.0 + steep * steep).sqrt() + random.between(-noise, noise)
    });
    passing.collect()
}

/// Any frequencies of a receiver.
fn ordinary(random: &mut Random, instants: &[i64]) -> Vec<f64> {
    drawn(instants.len(), || random.between(1e6, 1e10))
}

/// From sample to sample 120 Hz less, mostly: in steps of a second the slope is the bound of the steepest one.
fn by_steps_of_120(random: &mut Random, instants: &[i64]) -> Vec<f64> {
    let mut frequency = 0.0;
    drawn(instants.len(), || {
        frequency += random.pick(&[-120.0, -120.0, -120.0, -119.0, -121.0, -240.0, 0.0, 120.0]);
        frequency
    })
}

/// Small whole numbers: equal slopes are common.
fn small_whole_numbers(random: &mut Random, instants: &[i64]) -> Vec<f64> {
    drawn(instants.len(), || f64::from(random.whole(-5, 5)))
}

/// Ordinary ones among which some are zeros, infinities, NaNs or at an end of a range.
fn special(random: &mut Random, instants: &[i64]) -> Vec<f64> {
    let special = doubles::special();
    let rare = random.pick(&[1, 2, 5, 30]);
    drawn(instants.len(), || {
        if random.one_in(rare) {
            random.pick(&special)
        } else {
            random.between(-1e4, 1e4)
        }
    })
}

/// So large that sums and differences overflow.
pub fn huge(random: &mut Random, instants: &[i64]) -> Vec<f64> {
    drawn(instants.len(), || {
        let magnitude = random.pick(&[1e308, 1.7e308, 9e307, f64::MAX, 1e300]);
        doubles::with_any_sign(random, magnitude)
    })
}

/// Any bit patterns.
fn patterns(random: &mut Random, instants: &[i64]) -> Vec<f64> {
    drawn(instants.len(), || random.pattern())
}
