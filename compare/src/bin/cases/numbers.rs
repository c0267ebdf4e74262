//! The cases of the root, the conversions, the Chebyshev sum and the inverse.

use compare::inputs::doubles::{self, neighbours, power_of_two};
use compare::inputs::integers;
use compare::inputs::matrices::{self, Matrix};
use compare::inputs::paper;
use compare::inputs::polynomials::{self, Polynomial};
use compare::inputs::random::Random;

/// 60 doubles whose root is taken.
pub fn roots(random: &mut Random) -> Vec<f64> {
    let mut list = paper::roots();
    list.extend([0.0, 2.0, 3.0, 4.0, -1.0, f64::MAX, f64::MIN]);
    list.extend([f64::INFINITY, f64::NEG_INFINITY, -power_of_two(-1074)]);
    list.extend(neighbours(f64::MIN_POSITIVE));
    list.extend(neighbours(1.0));
    list.extend(&doubles::nans()[..6]);
    list.extend((0..3).flat_map(|_| doubles::near_square(random)));
    list.extend((0..4).flat_map(|_| doubles::near_tie(random)));
    list.extend((0..4).map(|_| doubles::subnormal(random).abs()));
    fill(list, 60, || doubles::positive_normal(random))
}

/// 40 whole numbers that become doubles.
pub fn whole_numbers(random: &mut Random) -> Vec<i64> {
    let two_to_53 = 1i64 << 53;
    let limit = integers::INSTANT_LIMIT;
    let mut list = vec![0, 1, -1, i64::MAX, i64::MIN, i64::MAX - 511, i64::MAX - 512];
    list.extend([limit, -limit, limit + 1, -limit - 1]);
    list.extend((-2..=3).map(|step| two_to_53 + step));
    list.extend([-two_to_53 - 1, -two_to_53 - 3]);
    list.extend((0..8).map(|_| integers::tie(random)));
    fill(list, 40, || integers::of_any_length(random))
}

/// 60 doubles that are cut to whole numbers.
pub fn doubles_to_truncate(random: &mut Random) -> Vec<f64> {
    let two_to_63 = power_of_two(63);
    let mut list = vec![0.0, -0.0, 0.5, -0.5, 1.5, -1.5, 2.5, -2.5];
    list.extend(neighbours(1.0));
    list.extend(neighbours(-1.0));
    list.extend(neighbours(two_to_63));
    list.extend(neighbours(-two_to_63));
    list.extend(neighbours(power_of_two(52) + 0.5));
    list.extend(neighbours(doubles::INSTANT_LIMIT));
    list.extend([f64::INFINITY, f64::NEG_INFINITY, f64::MAX, f64::MIN]);
    list.extend([f64::MIN_POSITIVE, -f64::MIN_POSITIVE, power_of_two(-1074)]);
    list.extend(&doubles::nans()[..6]);
    list.extend((0..10).map(|_| random.between(-3.1e9, 3.1e9)));
    fill(list, 60, || {
        let in_range = doubles::with_exponent(random, -2, 64);
        doubles::with_any_sign(random, in_range)
    })
}

/// 40 sums of Chebyshev polynomials.
pub fn sums(random: &mut Random) -> Vec<Polynomial> {
    let mut list = paper::sums();
    list.extend((0..10).map(|j| polynomials::single(j, -1.0)));
    list.push(polynomials::single(4, -0.0));
    list.push(polynomials::single(4, f64::NAN));
    list.push(polynomials::single(5, f64::INFINITY));
    while list.len() < 40 {
        list.extend(polynomials::KINDS.map(|draw| draw(random)));
    }
    list.truncate(40);
    list
}

/// 40 matrices that are inverted.
pub fn matrices_to_invert(random: &mut Random) -> Vec<Matrix> {
    let mut list = paper::matrices();
    let limits = neighbours(doubles::PIVOT_LIMIT);
    list.extend([matrices::diagonal(limits[0]), matrices::diagonal(limits[2])]);
    list.extend([matrices::identity(), matrices::nodes(matrices::even_node)]);
    list.extend([0, 9].map(matrices::identity_without_row));
    list.push(matrices::identity_with(3, 3, f64::NAN));
    list.push(matrices::identity_with(7, 3, f64::NAN));
    list.push(matrices::identity_with(9, 9, limits[0]));
    list.push(matrices::identity_with(0, 0, f64::INFINITY));
    while list.len() < 40 {
        list.extend(matrices::KINDS.map(|draw| draw(random)));
    }
    list.truncate(40);
    list
}

/// The list, made as long as wanted with random ones.
fn fill<T>(mut list: Vec<T>, length: usize, mut draw: impl FnMut() -> T) -> Vec<T> {
    assert!(list.len() < length, "no room is left for random cases");
    list.resize_with(length, &mut draw);
    list
}
