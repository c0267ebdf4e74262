//! Ten by ten matrices: those of nodes, ordinary ones, and every way of being degenerate.

use super::doubles::{self, PIVOT_LIMIT, neighbours, power_of_two, subnormal, with_any_sign};
use super::random::Random;
use std::array::from_fn;

/// Ten rows of ten.
pub type Matrix = [[f64; 10]; 10];

/// The random kinds.
pub const KINDS: [fn(&mut Random) -> Matrix; 18] = [
    uniform,
    jittered_nodes,
    random_nodes,
    patterns,
    spoiled,
    small_whole_numbers,
    equal_magnitudes,
    signed_zeros_and_ones,
    many_magnitudes,
    near_the_limit,
    diagonal_at_the_limit,
    half_subnormal,
    zero_row,
    zero_column,
    repeated_row,
    permutation,
    nan_on_the_diagonal,
    nan_below_the_diagonal,
];

/// The matrices that no randomness makes: of the even nodes, and those with one thing wrong at each place.
pub fn fixed() -> Vec<Matrix> {
    let mut list = vec![identity(), nodes(even_node)];
    list.extend((0..10).map(identity_without_row));
    let limits = neighbours(PIVOT_LIMIT);
    list.extend(limits.map(diagonal));
    list.extend(limits.map(|x| diagonal(-x)));
    list.extend(doubles::special().into_iter().map(|x| [[x; 10]; 10]));
    list.extend(doubles::special().into_iter().map(diagonal));
    for i in 0..10 {
        list.extend(limits.map(|x| identity_with(i, i, x)));
        list.extend((i..10).map(|r| identity_with(r, i, f64::NAN)));
        list.extend((i..10).map(|r| identity_with(r, i, f64::INFINITY)));
    }
    list
}

/// The identity.
pub fn identity() -> Matrix {
    diagonal(1.0)
}

/// The same number on the whole diagonal, zeros elsewhere.
pub fn diagonal(x: f64) -> Matrix {
    from_fn(|r| from_fn(|c| if r == c { x } else { 0.0 }))
}

/// The identity with one row zeroed.
pub fn identity_without_row(row: usize) -> Matrix {
    let mut matrix = identity();
    matrix[row] = [0.0; 10];
    matrix
}

/// The identity with one cell replaced.
pub fn identity_with(row: usize, column: usize, x: f64) -> Matrix {
    let mut matrix = identity();
    matrix[row][column] = x;
    matrix
}

/// Row k holds the ten Chebyshev polynomials at the k-th node.
pub fn nodes(mut node: impl FnMut(usize) -> f64) -> Matrix {
    from_fn(|k| polynomials_at(node(k)))
}

/// The k-th of ten even nodes from -1 to 1.
pub fn even_node(k: usize) -> f64 {
    -1.0 + 2.0 * k as f64 / 9.0
}

/// The values of the ten Chebyshev polynomials at one place.
fn polynomials_at(tau: f64) -> [f64; 10] {
    let (mut this, mut next) = (1.0, tau);
    from_fn(|_| {
        let value = this;
        (this, next) = (next, 2.0 * tau * next - this);
        value
    })
}

/// Cells from -1 to 1.
pub fn uniform(random: &mut Random) -> Matrix {
    filled(|| random.between(-1.0, 1.0))
}

/// Even nodes, each moved by up to a quarter of a gap.
pub fn jittered_nodes(random: &mut Random) -> Matrix {
    nodes(|k| even_node(k) + random.between(-0.055, 0.055))
}

/// Nodes anywhere in the window, in any order.
pub fn random_nodes(random: &mut Random) -> Matrix {
    nodes(|_| random.between(-1.0, 1.0))
}

/// Any bit patterns.
pub fn patterns(random: &mut Random) -> Matrix {
    filled(|| random.pattern())
}

/// Ordinary cells, but up to four of them special.
pub fn spoiled(random: &mut Random) -> Matrix {
    let special = doubles::special();
    let mut matrix = uniform(random);
    for _ in 0..=random.below(4) {
        matrix[random.below(10)][random.below(10)] = random.pick(&special);
    }
    matrix
}

/// Whole numbers from -2 to 2: equal pivots are common, and singular matrices too.
pub fn small_whole_numbers(random: &mut Random) -> Matrix {
    filled(|| f64::from(random.whole(-2, 2)))
}

/// One magnitude with both signs: the first of equal pivots must win.
pub fn equal_magnitudes(random: &mut Random) -> Matrix {
    let magnitude = random.between(0.1, 10.0);
    filled(|| with_any_sign(random, magnitude))
}

/// Zeros and ones of both signs.
pub fn signed_zeros_and_ones(random: &mut Random) -> Matrix {
    filled(|| random.pick(&[0.0, -0.0, 1.0, -1.0]))
}

/// Magnitudes so far apart that products overflow or vanish now and then.
pub fn many_magnitudes(random: &mut Random) -> Matrix {
    let reach = random.pick(&[20, 100, 300, 1000]);
    filled(|| {
        let magnitude = doubles::with_exponent(random, -reach, reach);
        with_any_sign(random, magnitude)
    })
}

/// Cells of about the size of the smallest pivot.
pub fn near_the_limit(random: &mut Random) -> Matrix {
    let scale = PIVOT_LIMIT * random.between(0.5, 8.0);
    filled(|| scale * random.between(-1.0, 1.0))
}

/// A diagonal of ones with a few at the smallest pivot or beside it.
pub fn diagonal_at_the_limit(random: &mut Random) -> Matrix {
    let limits = neighbours(PIVOT_LIMIT);
    let mut matrix = identity();
    for _ in 0..=random.below(3) {
        let i = random.below(10);
        let limit = random.pick(&limits);
        matrix[i][i] = with_any_sign(random, limit);
    }
    matrix
}

/// Half of the cells are subnormal.
pub fn half_subnormal(random: &mut Random) -> Matrix {
    filled(|| {
        let ordinary = random.between(-1.0, 1.0);
        let tiny = subnormal(random);
        random.pick(&[ordinary, tiny])
    })
}

/// Ordinary cells with one row of zeros.
pub fn zero_row(random: &mut Random) -> Matrix {
    let mut matrix = uniform(random);
    let zero = random.pick(&[0.0, -0.0]);
    matrix[random.below(10)] = [zero; 10];
    matrix
}

/// Ordinary cells with one column of zeros.
pub fn zero_column(random: &mut Random) -> Matrix {
    let column = random.below(10);
    let mut matrix = uniform(random);
    for row in &mut matrix {
        row[column] = random.pick(&[0.0, -0.0]);
    }
    matrix
}

/// Ordinary cells with one row written over another, now and then times a power of two.
pub fn repeated_row(random: &mut Random) -> Matrix {
    let factor = random.pick(&[1.0, 1.0, -1.0, 2.0, power_of_two(-3)]);
    let mut matrix = uniform(random);
    matrix[random.below(10)] = matrix[random.below(10)].map(|x| x * factor);
    matrix
}

/// The rows of the identity in any order and with any signs.
pub fn permutation(random: &mut Random) -> Matrix {
    let mut matrix = identity();
    for i in 0..10 {
        matrix.swap(i, random.below(10));
    }
    matrix.map(|row| row.map(|x| with_any_sign(random, x)))
}

/// Ordinary cells with a NaN on the diagonal.
pub fn nan_on_the_diagonal(random: &mut Random) -> Matrix {
    let i = random.below(10);
    let mut matrix = uniform(random);
    matrix[i][i] = random.pick(&doubles::nans());
    matrix
}

/// Ordinary cells with a NaN below the diagonal.
pub fn nan_below_the_diagonal(random: &mut Random) -> Matrix {
    let column = random.below(9);
    let row = column + 1 + random.below(9 - column);
    let mut matrix = uniform(random);
    matrix[row][column] = random.pick(&doubles::nans());
    matrix
}

/// Every cell drawn by the function, row after row.
fn filled(mut cell: impl FnMut() -> f64) -> Matrix {
    from_fn(|_| from_fn(|_| cell()))
}
