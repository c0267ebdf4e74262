//! The judge: the Rust's functions and ours on the same inputs, every bit compared, both timed.

// A judge of some groups alone leaves some helpers unused.
#![cfg_attr(
    not(all(
        feature = "orbit",
        feature = "approach",
        feature = "means",
        feature = "fit",
        feature = "sp3",
        feature = "board"
    )),
    allow(dead_code)
)]

#[cfg(feature = "approach")]
mod approach;
#[cfg(feature = "board")]
mod board;
#[cfg(feature = "numbers")]
mod chebyshev;
mod driver;
#[cfg(feature = "fit")]
mod fit;
#[cfg(feature = "means")]
mod means;
#[cfg(feature = "numbers")]
mod numbers;
#[cfg(feature = "orbit")]
mod orbit;
mod ours;
#[cfg(feature = "sp3")]
mod sp3;
mod tally;
mod timing;
#[cfg(any(feature = "orbit", feature = "fit"))]
mod tolerance;

use std::env;
use std::process::ExitCode;
use tally::Total;
use timing::Row;

/// A group of entries: how it is compared, and how it is timed.
type Group = (fn(&mut Total), fn() -> Vec<Row>);

/// The groups that our library has.
const GROUPS: &[Group] = &[
    #[cfg(feature = "numbers")]
    (numbers::compare, numbers::time),
    #[cfg(feature = "numbers")]
    (chebyshev::compare, chebyshev::time),
    #[cfg(feature = "orbit")]
    (orbit::compare, orbit::time),
    #[cfg(feature = "approach")]
    (approach::compare, approach::time),
    #[cfg(feature = "means")]
    (means::compare, means::time),
    #[cfg(feature = "fit")]
    (fit::compare, fit::time),
    #[cfg(feature = "sp3")]
    (sp3::compare, sp3::time),
    #[cfg(feature = "board")]
    (board::compare, board::time),
];

/// Compares all groups and times them; with `--times` it only times them, and compares nothing.
fn main() -> ExitCode {
    let times_alone = env::args().skip(1).any(|word| word == "--times");
    let mut total = Total::default();
    if !times_alone {
        for (compare, _) in GROUPS {
            compare(&mut total);
        }
    }
    let rows: Vec<Row> = GROUPS.iter().flat_map(|(_, time)| time()).collect();
    timing::print(&rows);

    if times_alone {
        println!("compare: timed alone, nothing compared");
    } else {
        println!("compare: {total}");
    }
    ExitCode::from(u8::from(total.differing > 0))
}
