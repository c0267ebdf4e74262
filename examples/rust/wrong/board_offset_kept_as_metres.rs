//! The clock offset of a board is kept as a length.
use orbit::*;

#[cfg(mended)]
type Kept = Seconds;
#[cfg(not(mended))]
type Kept = Metres;

pub fn offset(entries: &[Entry]) -> Result<Kept, Refusal> {
    fleet_board(entries) // WRONG: expected `Result<Metres, Refusal>`, found `Result<Seconds, Refusal>`
}
