//! The root by whole numbers alone, written from IEEE 754's words: the library's root is the machine's instruction, and so is the Rust's, so that
//! neither could tell a slip of that.

/// How many bits a root is worked out to: a double's 53 and one that says which way to round; whether anything is left tells the rest.
const ROOT_BITS: u32 = 54;

/// The double nearest the exact root of x, ties to even: a zero and infinity give themselves, a negative number and NaN give NaN.
pub fn nearest_root(x: f64) -> f64 {
    if x.is_nan() || x < 0.0 {
        return f64::NAN;
    }
    if x == 0.0 || x.is_infinite() {
        return x;
    }
    let (number, place) = decoded(x);
    // an even place, and a number so long that its root has as many bits as wanted
    let mut left = 2 * ROOT_BITS - 1 - (128 - number.leading_zeros());
    if (place - left as i32) % 2 != 0 {
        left += 1;
    }
    let number = number << left;
    let root = whole_root(number);
    let exact = root * root == number;
    assert!(root >> (ROOT_BITS - 1) == 1, "{ROOT_BITS} bits");
    let kept = root >> 1;
    let up = root & 1 == 1 && (!exact || kept & 1 == 1);
    encoded(kept + u128::from(up), (place - left as i32) / 2 + 1)
}

/// The whole number and the place of its last bit that a positive finite double is.
fn decoded(x: f64) -> (u128, i32) {
    let exponent = (x.to_bits() >> 52) as i32;
    let fraction = u128::from(x.to_bits() & ((1 << 52) - 1));
    if exponent == 0 {
        (fraction, -1074)
    } else {
        (fraction + (1 << 52), exponent - 1075)
    }
}

/// The double that is a number of 53 bits, or 2 to the 53rd, with its last bit at a place; no root is subnormal or overflows.
fn encoded(number: u128, place: i32) -> f64 {
    f64::from_bits((((place + 1074) as u64) << 52) + number as u64)
}

/// The largest whole number whose square is not above n, bit by bit.
fn whole_root(n: u128) -> u128 {
    let mut root = 0;
    for bit in (0..ROOT_BITS).rev() {
        let longer = root | (1 << bit);
        if longer * longer <= n {
            root = longer;
        }
    }
    root
}
