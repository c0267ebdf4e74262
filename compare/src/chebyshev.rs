//! The Chebyshev evaluation and the ten by ten inverse.

use crate::ours::{self, MARKER};
use crate::tally::{Tally, Total};
use crate::timing::{Row, row};
use compare::inputs::matrices::{self, Matrix};
use compare::inputs::paper;
use compare::inputs::polynomials::{self, Polynomial};
use compare::inputs::random::Random;
use compare::reference;
use compare::words::{hex, hex_list, same};
use std::hint::black_box;

/// How many polynomials of each random kind.
const POLYNOMIALS: usize = 20_000;

/// How many matrices of each random kind.
const MATRICES: usize = 5_000;

/// Compares the two functions.
pub fn compare(total: &mut Total) {
    compare_evaluations(total);
    compare_inverses(total);
}

/// Times the two functions: polynomials from -1 to 1, and the matrices of jittered nodes.
pub fn time() -> Vec<Row> {
    let mut random = Random::new(7);
    let polynomials: Vec<Polynomial> = (0..1024).map(|_| polynomials::unit(&mut random)).collect();
    let matrices: Vec<Matrix> = (0..64)
        .map(|_| matrices::jittered_nodes(&mut random))
        .collect();
    let mut area = [[0.0; 10]; 10];
    vec![
        row(
            "evaluate_chebyshev",
            &polynomials,
            ours::value_and_slope,
            rust_value_and_slope,
        ),
        row(
            "invert_matrix_10",
            &matrices,
            |rows| ours::invert(rows, black_box(&mut area)),
            reference::inverse,
        ),
    ]
}

/// The evaluation on every kind of polynomial.
fn compare_evaluations(total: &mut Total) {
    let mut tally = Tally::new("evaluate_chebyshev");
    let mut random = Random::new(5);
    for polynomial in paper::sums().into_iter().chain(polynomials::fixed()) {
        compare_evaluation(&mut tally, &polynomial);
    }
    for draw in polynomials::KINDS {
        for _ in 0..POLYNOMIALS {
            compare_evaluation(&mut tally, &draw(&mut random));
        }
    }
    tally.finish(total);
}

/// One polynomial: value and slope.
fn compare_evaluation(tally: &mut Tally, polynomial: &Polynomial) {
    let ours = ours::value_and_slope(polynomial);
    let rust = rust_value_and_slope(polynomial);
    tally.record(same(ours.0, rust.0) && same(ours.1, rust.1), || {
        format!(
            "{} {}: ours {} {}, Rust {} {}",
            hex_list(&polynomial.coefficients),
            hex(polynomial.tau),
            hex(ours.0),
            hex(ours.1),
            hex(rust.0),
            hex(rust.1)
        )
    });
}

/// The Rust's value and slope.
fn rust_value_and_slope(polynomial: &Polynomial) -> (f64, f64) {
    reference::value_and_slope(&polynomial.coefficients, polynomial.tau)
}

/// The inverse of every kind of matrix.
fn compare_inverses(total: &mut Total) {
    let mut tally = Tally::new("invert_matrix_10");
    let mut random = Random::new(6);
    for rows in paper::matrices().into_iter().chain(matrices::fixed()) {
        compare_inverse(&mut tally, &rows);
    }
    for draw in matrices::KINDS {
        for _ in 0..MATRICES {
            compare_inverse(&mut tally, &draw(&mut random));
        }
    }
    tally.finish(total);
}

/// One matrix: the refusal's number, and the whole of the area that is lent for the inverse.
fn compare_inverse(tally: &mut Tally, rows: &Matrix) {
    let (refusal, inverse) = our_inverse(rows);
    let rust = reference::inverse(rows);
    let equal = match &rust {
        Some(expected) => refusal == 0 && same_cells(&inverse, expected),
        None => refusal == ours::PIVOT_TOO_SMALL && is_untouched(&inverse),
    };
    tally.record(equal, || {
        let ours = format!("{refusal} {}", hex_list(inverse.as_flattened()));
        let rust = rust.map_or("none".to_string(), |cells| hex_list(cells.as_flattened()));
        let rows = hex_list(rows.as_flattened());
        format!("{rows}:\n  ours {ours},\n  Rust {rust}")
    });
}

/// Our refusal's number, and the area afterwards, which held the marker before.
fn our_inverse(rows: &Matrix) -> (u8, Matrix) {
    let mut inverse = [[f64::from_bits(MARKER); 10]; 10];
    let refusal = ours::invert(rows, &mut inverse);
    (refusal, inverse)
}

/// Every cell the same.
fn same_cells(a: &Matrix, b: &Matrix) -> bool {
    let mut pairs = a.as_flattened().iter().zip(b.as_flattened());
    pairs.all(|(&x, &y)| same(x, y))
}

/// Every cell still holds the marker.
fn is_untouched(area: &Matrix) -> bool {
    area.as_flattened().iter().all(|x| x.to_bits() == MARKER)
}
