//! Answers lines as the program `sheet` has to, with the published Rust: refusals
//! come from the rules, everything else from its `solve`. Says of other answers whether
//! they are right.

mod answer;
mod check;

pub use answer::answer_lines;
pub use check::{Wrong, check};
