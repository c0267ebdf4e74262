//! Sums of ten Chebyshev polynomials, with the place where each is evaluated.

use super::doubles::{self, power_of_two, subnormal, with_any_sign};
use super::random::Random;
use std::array::from_fn;

/// Ten coefficients and the place tau.
#[derive(Clone, Copy)]
pub struct Polynomial {
    pub coefficients: [f64; 10],
    pub tau: f64,
}

/// The random kinds.
pub const KINDS: [fn(&mut Random) -> Polynomial; 8] = [
    unit,
    metres,
    large,
    patterns,
    spoiled,
    subnormals,
    zeros,
    negative_zeros,
];

/// At every special place each coefficient alone, and all ten the same special number.
pub fn fixed() -> Vec<Polynomial> {
    let special = doubles::special();
    let mut list = Vec::new();
    for &tau in &special {
        list.extend((0..10).map(|j| single(j, tau)));
        list.extend(special.iter().map(|&x| Polynomial {
            coefficients: [x; 10],
            tau,
        }));
    }
    list
}

/// The coefficient at place `j` is one, the others are zero.
pub fn single(j: usize, tau: f64) -> Polynomial {
    let mut coefficients = [0.0; 10];
    coefficients[j] = 1.0;
    Polynomial { coefficients, tau }
}

/// Everything from -1 to 1.
pub fn unit(random: &mut Random) -> Polynomial {
    Polynomial {
        coefficients: from_fn(|_| random.between(-1.0, 1.0)),
        tau: random.between(-1.0, 1.0),
    }
}

/// Coefficients as those of an orbit in metres, also a little outside the window.
pub fn metres(random: &mut Random) -> Polynomial {
    Polynomial {
        coefficients: from_fn(|j| random.between(-1e8, 1e8) * power_of_two(-4 * j as i32)),
        tau: random.between(-3.0, 3.0),
    }
}

/// Coefficients and places so large that sums overflow now and then.
pub fn large(random: &mut Random) -> Polynomial {
    let tau = doubles::with_exponent(random, -60, 120);
    Polynomial {
        coefficients: from_fn(|_| doubles::with_exponent(random, 0, 1023))
            .map(|c| with_any_sign(random, c)),
        tau: with_any_sign(random, tau),
    }
}

/// Any bit patterns.
pub fn patterns(random: &mut Random) -> Polynomial {
    Polynomial {
        coefficients: from_fn(|_| random.pattern()),
        tau: random.pattern(),
    }
}

/// As `unit`, but one or two of its eleven numbers are special.
pub fn spoiled(random: &mut Random) -> Polynomial {
    let special = doubles::special();
    let mut polynomial = unit(random);
    for _ in 0..=random.below(2) {
        match random.below(11) {
            10 => polynomial.tau = random.pick(&special),
            j => polynomial.coefficients[j] = random.pick(&special),
        }
    }
    polynomial
}

/// Subnormal coefficients, at an ordinary place or at a subnormal one.
pub fn subnormals(random: &mut Random) -> Polynomial {
    let ordinary = random.between(-2.0, 2.0);
    let tiny = subnormal(random);
    Polynomial {
        coefficients: from_fn(|_| subnormal(random)),
        tau: random.pick(&[ordinary, tiny]),
    }
}

/// Zeros of both signs with a few ones, at a zero or an end of the window.
pub fn zeros(random: &mut Random) -> Polynomial {
    Polynomial {
        coefficients: from_fn(|_| random.pick(&[0.0, -0.0, 0.0, -0.0, 1.0, -1.0])),
        tau: random.pick(&[0.0, -0.0, 1.0, -1.0, 0.5, -0.5]),
    }
}

/// Every term of both sums is a negative zero: only the zero that they start from makes them positive.
pub fn negative_zeros(random: &mut Random) -> Polynomial {
    Polynomial {
        coefficients: [-0.0; 10],
        tau: random.between(1.0, 3.0),
    }
}
