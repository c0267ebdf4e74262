//! Calls at other tolerances than the Rust's: how their answers differ from those at its own, and how even the windows are.

use crate::driver::{self, Ours};
use crate::tally::Tally;
use compare::answers::Answer;
use compare::calls::{Call, Entry};
use compare::expected;
use compare::inputs::tolerances;
use compare::reference::TOLERANCE;

/// What is noted of an answer that is no refusal, and none at 1.0.
pub const ANOTHER: &str = "another answer than at 1.0";

/// What is noted of a window.
pub const WINDOWS: [&str; 3] = [
    "even, uneven at 1.0",
    "uneven, even at 1.0",
    "off by exactly the tolerance",
];

/// Compares a call at its tolerance, and counts how the expected answer differs from that at 1.0; at a zero of either sign it must be the same.
pub fn compare(tally: &mut Tally, entry: Entry, ours: Ours, call: &Call) -> Answer {
    let expected = driver::compare(tally, entry, ours, call);
    let at_one = expected::answer(entry, &call.at(TOLERANCE));
    match [&expected, &at_one].map(|answer| answer.refusal.unwrap_or(0)) {
        [0, 0] => tally.note_if(ANOTHER, expected != at_one),
        [0, number] => tally.note(format!("answered, refused by {number} at 1.0")),
        [number, 0] => tally.note(format!("refused by {number}, answered at 1.0")),
        _ => {}
    }
    if call.tolerance == 0.0 {
        let at_minus = expected::answer(entry, &call.at(-call.tolerance));
        assert!(expected == at_minus, "the zeros are two tolerances");
    }
    expected
}

/// Counts how even the window about an instant is at the call's tolerance and at 1.0.
pub fn note_window(tally: &mut Tally, call: &Call, instant: i64) {
    let deviation = tolerances::deviation(&call.table, instant);
    let [even, even_at_one] = [call.tolerance, TOLERANCE].map(|most| deviation <= most);
    let exactly = deviation > 0.0 && deviation == call.tolerance;
    let holds = [even && !even_at_one, !even && even_at_one, exactly];
    for (what, holds) in WINDOWS.into_iter().zip(holds) {
        tally.note_if(what, holds);
    }
}
