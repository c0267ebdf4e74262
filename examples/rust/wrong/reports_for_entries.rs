//! Reports are lent where the entries of a board are meant.
use orbit::*;

#[cfg(mended)]
type Lent = Entry;
#[cfg(not(mended))]
type Lent = Report;

pub fn offset(list: &[Lent]) -> Result<Seconds, Refusal> {
    fleet_board(list) // WRONG: expected `&[Entry]`, found `&[Report]`
}
