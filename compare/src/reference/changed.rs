//! The changed text: the tolerance of an even window is the one in use, where the unchanged text has its number.

// Nothing is asked of it but of tables.
#![allow(dead_code)]

use super::{FromNaiveUtcAndOffset, TimestampNanosOpt};
use super::{Motion, Report, Samples, TabulatedOrbit, instant};
use crate::inputs::tables::Table;
use chrono::{DateTime, Utc};
use std::cell::Cell;
use std::io;

include!(concat!(env!("OUT_DIR"), "/orbit_by_tolerance.rs"));
include!("tables.rs");

thread_local! {
    /// The tolerance in use, while something is asked.
    static IN_USE: Cell<Option<f64>> = const { Cell::new(None) };
}

/// The tolerance in use; the text calls this.
fn tolerance_in_use() -> f64 {
    IN_USE.get().expect("a tolerance is in use")
}

/// What is asked of a table at any tolerance.
pub fn at<A>(tolerance: f64, table: &Table, ask: impl FnOnce(&dyn TabulatedOrbit) -> A) -> A {
    IN_USE.set(Some(tolerance));
    let answer = ask(&orbit(table));
    IN_USE.set(None);
    answer
}
