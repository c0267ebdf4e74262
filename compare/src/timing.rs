//! The time of a call on both sides: the same driver, the same inputs, the middle one of several rounds.

use std::hint::black_box;
use std::time::{Duration, Instant};

/// How many rounds each side has; the two sides take turns.
const ROUNDS: usize = 9;

/// How long a round lasts at least.
const ROUND: Duration = Duration::from_millis(20);

/// The nanoseconds of a call of one function on both sides, or on ours alone.
pub struct Row {
    name: String,
    ours: f64,
    rust: Option<f64>,
    /// How many bytes a call reads, where these are counted.
    bytes: Option<usize>,
}

impl Row {
    /// The same row of a call that reads so many bytes.
    pub fn of_bytes(self, bytes: usize) -> Row {
        Row {
            bytes: Some(bytes),
            ..self
        }
    }
}

/// Times one function on both sides.
pub fn row<I, A, B>(
    name: impl Into<String>,
    inputs: &[I],
    mut ours: impl FnMut(&I) -> A,
    mut rust: impl FnMut(&I) -> B,
) -> Row {
    let mut our_rounds = Vec::new();
    let mut rust_rounds = Vec::new();
    for _ in 0..ROUNDS {
        our_rounds.push(round(inputs, &mut ours));
        rust_rounds.push(round(inputs, &mut rust));
    }
    Row {
        name: name.into(),
        ours: middle(our_rounds),
        rust: Some(middle(rust_rounds)),
        bytes: None,
    }
}

/// Times something that the Rust does not do.
pub fn row_of_ours<I, A>(
    name: impl Into<String>,
    inputs: &[I],
    mut ours: impl FnMut(&I) -> A,
) -> Row {
    let rounds = (0..ROUNDS).map(|_| round(inputs, &mut ours));
    Row {
        name: name.into(),
        ours: middle(rounds.collect()),
        rust: None,
        bytes: None,
    }
}

/// The word for a table's spacing in the name of a row.
pub fn spacing(uneven: bool) -> &'static str {
    if uneven { "uneven" } else { "even" }
}

/// The bar for ours over the Rust's: none for what has a hardware instruction on the Rust's side alone, or no Rust side.
fn bar(name: &str) -> Option<f64> {
    let starts = |word: &str| name.starts_with(word);
    let unbarred = ["sqrt", "nearest", "truncated", "its checks", "fleet_board"];
    if unbarred.into_iter().any(starts) {
        None
    } else if starts("read_sp3") {
        name.contains("a day").then_some(0.3)
    } else if starts("fit_satellite") || starts("pass") {
        Some(if name.contains("uneven") { 1.05 } else { 0.70 })
    } else if starts("downsample_data") && name.contains("in order") {
        Some(0.3)
    } else {
        Some(1.5)
    }
}

/// Prints the table: each entry, both sides, the ratio, its bar, what is above it, and how many bytes ours reads.
pub fn print(rows: &[Row]) {
    let number = |x: f64| format!("{x:.2}");
    let some = |x: Option<f64>| x.map_or(String::new(), number);
    println!();
    print_line(["ns per call", "ours", "Rust", "ours / Rust", "bar", "", ""]);
    for row in rows {
        let ratio = row.rust.map(|rust| row.ours / rust);
        let bar = bar(&row.name);
        let above = ratio.zip(bar).is_some_and(|(ratio, bar)| ratio > bar);
        print_line([
            &row.name,
            &number(row.ours),
            &some(row.rust),
            &some(ratio),
            &some(bar),
            if above { "above" } else { "" },
            &speed(row),
        ]);
    }
    println!();
}

/// Prints one line of the table.
fn print_line([name, ours, rust, ratio, bar, above, speed]: [&str; 7]) {
    println!("{name:36}{ours:>14}{rust:>14}{ratio:>14}{bar:>8}  {above}{speed}");
}

/// How fast ours reads, where bytes are counted.
fn speed(row: &Row) -> String {
    let speed = |bytes: usize| {
        format!(
            "  {:.0} million bytes a second",
            bytes as f64 * 1e3 / row.ours
        )
    };
    row.bytes.map_or(String::new(), speed)
}

/// The nanoseconds of a call in one round, which goes through all inputs again and again.
fn round<I, A>(inputs: &[I], call: &mut impl FnMut(&I) -> A) -> f64 {
    let start = Instant::now();
    let mut calls = 0;
    loop {
        for input in inputs {
            black_box(call(black_box(input)));
        }
        calls += inputs.len();
        let elapsed = start.elapsed();
        if elapsed >= ROUND {
            return elapsed.as_nanos() as f64 / calls as f64;
        }
    }
}

/// The middle one of an odd number of measurements.
fn middle(mut rounds: Vec<f64>) -> f64 {
    rounds.sort_by(f64::total_cmp);
    rounds[rounds.len() / 2]
}
