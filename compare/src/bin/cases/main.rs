//! Writes the stored list of cases of the program `replay`; every expected answer is the Rust's, or a refusal of the paper's, and of orbit files and
//! boards that of the judge's own reader and board.
//!
//! Our library is not linked here. usage: cases FOLDER, which gets the files stdin and stdout.

mod board;
mod faulty;
mod fit;
mod numbers;
mod orbit;
mod samples;
mod sp3;
mod tolerances;

use compare::boards::{self, BoardEntry};
use compare::calls::{Call, Entry};
use compare::description;
use compare::expected;
use compare::files::FileCall;
use compare::fleet;
use compare::inputs::matrices::Matrix;
use compare::inputs::paper;
use compare::inputs::polynomials::Polynomial;
use compare::inputs::random::Random;
use compare::reference;
use compare::words::{Word, hex, hex_whole};
use std::path::PathBuf;
use std::{env, fs, io};

/// One call of one entry.
enum Case {
    Sqrt(f64),
    Nearest(i64),
    Truncated(f64),
    EvaluateChebyshev(Polynomial),
    InvertMatrix10(Box<Matrix>),
    Of(Entry, Box<Call>),
    ReadSp3(FileCall),
    FleetBoard(Vec<BoardEntry>),
}

impl Case {
    /// The entry's name.
    fn name(&self) -> &'static str {
        match self {
            Case::Sqrt(_) => "sqrt",
            Case::Nearest(_) => "nearest",
            Case::Truncated(_) => "truncated",
            Case::EvaluateChebyshev(_) => "evaluate_chebyshev",
            Case::InvertMatrix10(_) => "invert_matrix_10",
            Case::Of(entry, _) => entry.name(),
            Case::ReadSp3(_) => "read_sp3",
            Case::FleetBoard(_) => "fleet_board",
        }
    }

    /// The arguments as they are handed over, a word of bits each.
    fn arguments(&self) -> Vec<String> {
        match self {
            Case::Sqrt(x) | Case::Truncated(x) => vec![hex(*x)],
            Case::Nearest(n) => vec![hex_whole(*n)],
            Case::EvaluateChebyshev(polynomial) => {
                let all = polynomial.coefficients.iter().chain([&polynomial.tau]);
                all.map(|&x| hex(x)).collect()
            }
            Case::InvertMatrix10(rows) => rows.as_flattened().iter().map(|&x| hex(x)).collect(),
            Case::Of(entry, call) => call.arguments(*entry),
            Case::ReadSp3(call) => call.arguments(),
            Case::FleetBoard(entries) => boards::arguments(entries),
        }
    }

    /// What is expected, a word each.
    fn answers(&self) -> Vec<String> {
        match self {
            Case::Sqrt(x) => vec![answer(reference::sqrt(*x))],
            Case::Nearest(n) => vec![answer(reference::nearest(*n))],
            Case::Truncated(x) => vec![hex_whole(reference::truncated(*x))],
            Case::EvaluateChebyshev(Polynomial { coefficients, tau }) => {
                let (value, slope) = reference::value_and_slope(coefficients, *tau);
                vec![answer(value), answer(slope)]
            }
            Case::InvertMatrix10(rows) => inverse_answers(reference::inverse(rows)),
            Case::Of(entry, call) => expected::answer(*entry, call).words(),
            Case::ReadSp3(call) => description::answer(call).words(),
            Case::FleetBoard(entries) => fleet::answer(entries).words(),
        }
    }
}

fn main() -> io::Result<()> {
    let folder = PathBuf::from(env::args_os().nth(1).expect("usage: cases FOLDER"));
    let cases = all_cases();
    fs::write(folder.join("stdin"), lines(&cases, Case::arguments))?;
    fs::write(folder.join("stdout"), lines(&cases, Case::answers))?;
    println!("cases: {} written", cases.len());
    Ok(())
}

/// One line for each case: the entry's name, then the words.
fn lines(cases: &[Case], words: impl Fn(&Case) -> Vec<String>) -> String {
    cases
        .iter()
        .map(|case| format!("{} {}\n", case.name(), words(case).join(" ")))
        .collect()
}

/// An answered double: its bits, or that it is a NaN.
fn answer(x: f64) -> String {
    Word::Double(x).to_string()
}

/// The refusal's number alone, or 0 and the hundred cells.
fn inverse_answers(inverse: Option<Matrix>) -> Vec<String> {
    match inverse {
        None => vec!["8".to_string()],
        Some(cells) => ["0".to_string()]
            .into_iter()
            .chain(cells.as_flattened().iter().map(|&x| answer(x)))
            .collect(),
    }
}

/// The cases of every entry; of each first those of the paper, then edges, then random ones.
fn all_cases() -> Vec<Case> {
    let mut cases = cases_of_numbers();
    let calls = [
        orbit::cases(),
        samples::cases(),
        fit::cases(),
        tolerances::cases(),
    ];
    let calls = calls.into_iter().flatten();
    cases.extend(calls.map(|(entry, call)| Case::Of(entry, Box::new(call))));
    cases.extend(sp3::cases().into_iter().map(Case::ReadSp3));
    cases.extend(board::cases().into_iter().map(Case::FleetBoard));
    cases
}

/// The cases of one entry: those of the paper's table, then these.
fn of(entry: Entry, calls: Vec<Call>) -> impl Iterator<Item = (Entry, Call)> {
    let calls = paper::calls(entry).into_iter().chain(calls);
    calls.map(move |call| (entry, call))
}

/// The cases that take no table and no samples.
fn cases_of_numbers() -> Vec<Case> {
    let mut random = Random::new(8);
    let mut cases = Vec::new();
    let roots = numbers::roots(&mut random).into_iter();
    cases.extend(roots.map(Case::Sqrt));
    let whole = numbers::whole_numbers(&mut random).into_iter();
    cases.extend(whole.map(Case::Nearest));
    let doubles = numbers::doubles_to_truncate(&mut random).into_iter();
    cases.extend(doubles.map(Case::Truncated));
    let sums = numbers::sums(&mut random).into_iter();
    cases.extend(sums.map(Case::EvaluateChebyshev));
    let matrices = numbers::matrices_to_invert(&mut random).into_iter();
    cases.extend(matrices.map(|rows| Case::InvertMatrix10(Box::new(rows))));
    cases
}
