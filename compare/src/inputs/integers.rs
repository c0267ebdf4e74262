//! Signed 64-bit whole numbers: the ends of ranges, ties of the rounding, and random ones.

use super::random::Random;

/// The greatest magnitude of an instant, in nanoseconds.
pub const INSTANT_LIMIT: i64 = 4_000_000_000_000_000_000;

/// Zero, both ends, the limit of an instant and every power of two, each with its neighbours and both signs.
pub fn edges() -> Vec<i64> {
    let mut centres = vec![0, i64::MAX, INSTANT_LIMIT];
    centres.extend((0..63).map(|exponent| 1i64 << exponent));
    let mut list: Vec<i64> = centres.into_iter().flat_map(around).collect();
    list.push(i64::MIN);
    list
}

/// The numbers up to four away, and their negatives; what lies past the range is its end.
pub fn around(centre: i64) -> Vec<i64> {
    (-4..=4)
        .map(|step| centre.saturating_add(step))
        .flat_map(|n| [n, n.saturating_neg()])
        .collect()
}

/// A number exactly half way between two doubles, of any magnitude that has such.
pub fn tie(random: &mut Random) -> i64 {
    let dropped = 1 + random.below(10);
    let kept = match random.below(4) {
        0 => (1 << 52) + random.below(4) as i64,
        1 => (1 << 53) - 1 - random.below(4) as i64,
        _ => (random.bits() >> 12) as i64 | (1 << 52),
    };
    let tie = (kept << dropped) + (1 << (dropped - 1));
    random.pick(&[tie, -tie])
}

/// A number of any length in bits.
pub fn of_any_length(random: &mut Random) -> i64 {
    random.bits() as i64 >> random.below(64)
}
