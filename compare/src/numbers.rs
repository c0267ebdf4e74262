//! The root and the two conversions.

use crate::ours;
use crate::tally::{Tally, Total};
use crate::timing::{Row, row};
use compare::inputs::paper;
use compare::inputs::random::Random;
use compare::inputs::{doubles, integers};
use compare::reference;
use compare::roots::nearest_root;
use compare::words::{hex, hex_whole, same};

/// How many random bit patterns each function gets.
const PATTERNS: usize = 2_000_000;

/// How many more of each kind that random patterns seldom make.
const OF_A_KIND: usize = 500_000;

/// How many different inputs are timed.
const TIMED: usize = 4096;

/// Compares the three functions.
pub fn compare(total: &mut Total) {
    compare_roots(total);
    compare_nearest(total);
    compare_truncated(total);
}

/// Times the three functions: positive normals, whole numbers of any length, shifts in microseconds.
pub fn time() -> Vec<Row> {
    let mut random = Random::new(4);
    let positive = timed(|| doubles::positive_normal(&mut random));
    let whole = timed(|| integers::of_any_length(&mut random));
    let shifts = timed(|| random.between(-3e9, 3e9));
    vec![
        row(
            "sqrt (Rust: the hardware's)",
            &positive,
            |&x| ours::sqrt(x),
            |&x| reference::sqrt(x),
        ),
        row(
            "nearest",
            &whole,
            |&n| ours::nearest(n),
            |&n| reference::nearest(n),
        ),
        row(
            "truncated",
            &shifts,
            |&x| ours::truncated(x),
            |&x| reference::truncated(x),
        ),
    ]
}

/// The inputs of one timing.
fn timed<T>(mut draw: impl FnMut() -> T) -> Vec<T> {
    (0..TIMED).map(|_| draw()).collect()
}

/// The root, against the hardware's and against one by whole numbers.
fn compare_roots(total: &mut Total) {
    let mut tally = Tally::new("sqrt");
    let mut random = Random::new(1);
    for x in paper::roots().into_iter().chain(doubles::edges()) {
        compare_root(&mut tally, x);
    }
    for _ in 0..PATTERNS {
        compare_root(&mut tally, random.pattern());
    }
    for _ in 0..OF_A_KIND {
        compare_root(&mut tally, doubles::positive_normal(&mut random));
        compare_root(&mut tally, doubles::subnormal(&mut random));
        for x in doubles::near_square(&mut random) {
            compare_root(&mut tally, x);
        }
        for x in doubles::near_tie(&mut random) {
            compare_root(&mut tally, x);
        }
    }
    tally.finish(total);
}

/// One root.
fn compare_root(tally: &mut Tally, x: f64) {
    let (ours, rust, exact) = (ours::sqrt(x), reference::sqrt(x), nearest_root(x));
    tally.record(same(ours, rust) && same(ours, exact), || {
        format!(
            "{}: ours {}, Rust {}, by whole numbers {}",
            hex(x),
            hex(ours),
            hex(rust),
            hex(exact)
        )
    });
}

/// Whole number to double.
fn compare_nearest(total: &mut Total) {
    let mut tally = Tally::new("nearest");
    let mut random = Random::new(2);
    for n in integers::edges() {
        compare_one_nearest(&mut tally, n);
    }
    for _ in 0..PATTERNS {
        compare_one_nearest(&mut tally, random.bits() as i64);
    }
    for _ in 0..OF_A_KIND {
        compare_one_nearest(&mut tally, integers::of_any_length(&mut random));
    }
    for _ in 0..OF_A_KIND / 10 {
        for n in integers::around(integers::tie(&mut random)) {
            compare_one_nearest(&mut tally, n);
        }
    }
    tally.finish(total);
}

/// One whole number.
fn compare_one_nearest(tally: &mut Tally, n: i64) {
    let (ours, rust) = (ours::nearest(n), reference::nearest(n));
    tally.record(same(ours, rust), || {
        format!("{}: ours {}, Rust {}", hex_whole(n), hex(ours), hex(rust))
    });
}

/// Double to whole number.
fn compare_truncated(total: &mut Total) {
    let mut tally = Tally::new("truncated");
    let mut random = Random::new(3);
    for x in doubles::edges() {
        compare_one_truncated(&mut tally, x);
    }
    for _ in 0..PATTERNS {
        compare_one_truncated(&mut tally, random.pattern());
    }
    for _ in 0..OF_A_KIND {
        let in_range = doubles::with_exponent(&mut random, -3, 65);
        compare_one_truncated(&mut tally, doubles::with_any_sign(&mut random, in_range));
        let whole = integers::of_any_length(&mut random) as f64;
        for x in doubles::neighbours(whole) {
            compare_one_truncated(&mut tally, x);
        }
        compare_one_truncated(&mut tally, doubles::subnormal(&mut random));
    }
    tally.finish(total);
}

/// One double.
fn compare_one_truncated(tally: &mut Tally, x: f64) {
    let (ours, rust) = (ours::truncated(x), reference::truncated(x));
    tally.record(ours == rust, || {
        format!(
            "{}: ours {}, Rust {}",
            hex(x),
            hex_whole(ours),
            hex_whole(rust)
        )
    });
}
