//! The list of answers for the replay program. See oracle/README.md for the
//! form of the records.
//!
//! Sums, marking, counts, verdicts and the grid of a unique puzzle come from the
//! published Rust. The rules give the candidate tables and contradictions, the grid of
//! a puzzle that has several, the refusals that the Rust does not have and the check of
//! a line, and decide where docs/DIFFERENCES.md lets them differ.

mod candidates;
mod count;
mod line_check;
mod marking;
mod record;
mod searching;
mod solve;
mod sums;

pub use record::{Read, Record, read};

/// A call whose answers can be written.
#[derive(Clone, Copy, Debug, PartialEq, Eq)]
pub enum Call {
    TargetSums,
    MarkSheet,
    Candidates,
    Count,
    Solve,
    LineCheck,
}

impl Call {
    /// In the order of their tags.
    pub const ALL: [Call; 6] = [
        Call::TargetSums,
        Call::MarkSheet,
        Call::Candidates,
        Call::Count,
        Call::Solve,
        Call::LineCheck,
    ];

    /// The word that chooses this call on the command line.
    pub fn named(word: &str) -> Option<Call> {
        match word {
            "sums" => Some(Call::TargetSums),
            "marking" => Some(Call::MarkSheet),
            "candidates" => Some(Call::Candidates),
            "count" => Some(Call::Count),
            "solve" => Some(Call::Solve),
            "lines" => Some(Call::LineCheck),
            _ => None,
        }
    }

    /// The first byte of its records.
    pub fn tag(self) -> u8 {
        match self {
            Call::TargetSums => 1,
            Call::MarkSheet => 2,
            Call::Candidates => 3,
            Call::Count => 4,
            Call::Solve => 5,
            Call::LineCheck => 6,
        }
    }

    /// The number of fields in its records.
    pub fn fields(self) -> usize {
        match self {
            Call::TargetSums | Call::Candidates | Call::Solve => 7,
            Call::MarkSheet => 5,
            Call::Count => 8,
            Call::LineCheck => 4,
        }
    }

    /// Its records, always the same ones.
    pub fn records(self) -> Vec<Record> {
        match self {
            Call::TargetSums => sums::records(),
            Call::MarkSheet => marking::records(),
            Call::Candidates => candidates::records(),
            Call::Count => count::records(),
            Call::Solve => solve::records(),
            Call::LineCheck => line_check::records(),
        }
    }
}
