//! Doubles: the edges of the format, and random ones of a wanted kind.

use super::random::Random;

/// The smallest pivot that the inverse accepts.
pub const PIVOT_LIMIT: f64 = 1e-12;

/// The greatest magnitude of an instant, in nanoseconds.
pub const INSTANT_LIMIT: f64 = 4e18;

const LEAST_EXPONENT: i32 = -1074;
const LEAST_NORMAL_EXPONENT: i32 = -1022;
const GREATEST_EXPONENT: i32 = 1023;

/// Two to the given exponent, which lies from -1074 to 1023.
pub fn power_of_two(exponent: i32) -> f64 {
    if exponent < LEAST_NORMAL_EXPONENT {
        f64::from_bits(1 << (exponent - LEAST_EXPONENT))
    } else {
        f64::from_bits(((exponent + GREATEST_EXPONENT) as u64) << 52)
    }
}

/// A double with the ones just below and just above it in magnitude.
pub fn neighbours(x: f64) -> [f64; 3] {
    let bits = x.to_bits();
    [bits.wrapping_sub(1), bits, bits.wrapping_add(1)].map(f64::from_bits)
}

/// Quiet and signalling NaNs of both signs, with small, middling and full payloads.
pub fn nans() -> Vec<f64> {
    let payloads: [u64; 7] = [
        0x0000_0000_0000_0001,
        0x0000_0000_0001_0000,
        0x0007_ffff_ffff_ffff,
        0x0008_0000_0000_0000,
        0x0008_0000_0000_0001,
        0x000c_0123_4567_89ab,
        0x000f_ffff_ffff_ffff,
    ];
    let positive = payloads.map(|payload| f64::from_bits(0x7ff0_0000_0000_0000 | payload));
    both_signs(&positive)
}

/// The few doubles that most easily go wrong: zeros, infinities, NaNs, and the ends of each range.
pub fn special() -> Vec<f64> {
    let positive = [
        0.0,
        f64::INFINITY,
        f64::MAX,
        f64::MIN_POSITIVE,
        power_of_two(LEAST_EXPONENT),
        f64::from_bits(f64::MIN_POSITIVE.to_bits() - 1),
        1.0,
        0.5,
        PIVOT_LIMIT,
    ];
    let mut list = both_signs(&positive);
    list.extend(nans());
    list
}

/// Every power of two, the limits of this program and of an i64, each with its neighbours and both signs.
pub fn edges() -> Vec<f64> {
    let mut centres: Vec<f64> = (LEAST_EXPONENT..=GREATEST_EXPONENT)
        .map(power_of_two)
        .collect();
    centres.extend([PIVOT_LIMIT, INSTANT_LIMIT, 1e-9, 1e-6, 0.1, 1e6, 1e8, 1e9]);
    centres.extend((1..=4).map(|n| power_of_two(53) + f64::from(n)));
    centres.extend((1..=4).map(|n| power_of_two(53) - f64::from(n)));
    centres.extend((1..=32).map(|n| f64::from(n) / 2.0));
    let near: Vec<f64> = centres.iter().flat_map(|&x| neighbours(x)).collect();
    let mut list = both_signs(&near);
    list.extend(special());
    list
}

/// A positive normal double of any magnitude.
pub fn positive_normal(random: &mut Random) -> f64 {
    with_exponent(random, LEAST_NORMAL_EXPONENT, GREATEST_EXPONENT)
}

/// A positive double whose exponent lies from `low` to `high`.
pub fn with_exponent(random: &mut Random, low: i32, high: i32) -> f64 {
    let fraction = random.bits() >> 12;
    let exponent = (random.whole(low, high) + GREATEST_EXPONENT) as u64;
    f64::from_bits((exponent << 52) | fraction)
}

/// A subnormal double of either sign, now and then a zero.
pub fn subnormal(random: &mut Random) -> f64 {
    let fraction = random.bits() >> 12 >> random.below(53);
    with_any_sign(random, f64::from_bits(fraction))
}

/// The double with a sign drawn anew.
pub fn with_any_sign(random: &mut Random, x: f64) -> f64 {
    f64::from_bits(x.to_bits() ^ ((random.bits() & 1) << 63))
}

/// The square of a whole number, exact, with its neighbours.
pub fn near_square(random: &mut Random) -> [f64; 3] {
    let root = (random.bits() >> (38 + random.below(22))) as f64;
    let scale = power_of_two(2 * random.whole(-500, 450));
    neighbours(root * root * scale)
}

/// The doubles around the square of a number half way between two doubles: their roots all but tie.
pub fn near_tie(random: &mut Random) -> [f64; 3] {
    let below = (random.bits() >> 11) | (1 << 52);
    let doubled = 2 * u128::from(below) + 1;
    let square = doubled * doubled;
    let dropped = 128 - 53 - square.leading_zeros() as i32;
    let kept = (square >> dropped) as f64;
    neighbours(kept * power_of_two(dropped + 2 * random.whole(-500, 430)))
}

/// Each of the doubles and its negative.
fn both_signs(list: &[f64]) -> Vec<f64> {
    list.iter().flat_map(|&x| [x, -x]).collect()
}
