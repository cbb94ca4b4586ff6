//! Judges answers: they are the Rust's, but for the grid of a puzzle that has several,
//! which is the first by the rules.

use std::fmt;

use rules::{LinePuzzle, first_grid, line_puzzle};

use crate::answer::{MULTIPLE, shown};

/// The first line whose answer is wrong, from 1 on, and what was answered, if anything.
#[derive(Debug, PartialEq, Eq)]
pub struct Wrong {
    pub number: usize,
    pub line: Option<Vec<u8>>,
    pub answer: Option<Vec<u8>>,
}

impl fmt::Display for Wrong {
    fn fmt(&self, f: &mut fmt::Formatter<'_>) -> fmt::Result {
        let shown = |bytes: &Option<Vec<u8>>| match bytes {
            Some(bytes) => bytes.escape_ascii().to_string(),
            None => "nothing".to_string(),
        };
        let (line, answer) = (shown(&self.line), shown(&self.answer));
        write!(f, "line {}: {line}\nanswer: {answer}", self.number)
    }
}

/// Whether these answers to the lines are right, given the Rust's: how many there are,
/// or the first that is wrong. Each line has one answer, and each answer its line end.
pub fn check(lines: &[u8], by_rust: &[u8], answers: &[u8]) -> Result<usize, Wrong> {
    let mut lines = with_ends(lines);
    let mut by_rust = with_ends(by_rust);
    let mut answers = with_ends(answers);
    let mut right = 0;
    loop {
        let (line, answer) = (lines.next(), answers.next());
        match (line, by_rust.next(), answer) {
            (None, None, None) => return Ok(right),
            (Some(line), Some(by_rust), Some(answer)) if is_right(line, by_rust, answer) => {
                right += 1;
            }
            _ => {
                return Err(Wrong {
                    number: right + 1,
                    line: line.map(<[u8]>::to_vec),
                    answer: answer.map(<[u8]>::to_vec),
                });
            }
        }
    }
}

/// The lines of a text, each with its line end, which the last may lack.
fn with_ends(text: &[u8]) -> impl Iterator<Item = &[u8]> {
    text.split_inclusive(|&byte| byte == b'\n')
}

/// The Rust's answer, or if there are several grids the first.
fn is_right(line: &[u8], by_rust: &[u8], answer: &[u8]) -> bool {
    if by_rust.starts_with(MULTIPLE.as_bytes()) {
        with_first(line).as_deref() == Some(answer)
    } else {
        by_rust == answer
    }
}

/// The answer to a puzzle's line that shows its first grid, with its line end.
fn with_first(line: &[u8]) -> Option<Vec<u8>> {
    let puzzle = line_puzzle(line.strip_suffix(b"\n").unwrap_or(line)).ok()?;
    let LinePuzzle {
        size,
        rows,
        columns,
    } = puzzle;
    let first = first_grid(size, &rows, &columns, &[])?;
    Some(format!("{MULTIPLE}{}\n", shown(size, &first)).into_bytes())
}
