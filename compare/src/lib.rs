//! What the judge and the list of cases share: the Rust's own functions, the paper's checks, reader and board, the inputs, and how numbers are written.

pub mod answers;
pub mod boards;
pub mod calls;
pub mod checks;
pub mod description;
pub mod expected;
pub mod files;
pub mod fleet;
pub mod inputs;
pub mod place;
pub mod reference;
pub mod roots;
pub mod words;
