//! A line that the program `sheet` reads.

use crate::{Unit, puzzle_refusal};

/// The most bytes of a line; its line end does not count.
const LONGEST: usize = 80;

/// What an accepted line asks for.
#[derive(Clone, Debug, PartialEq, Eq)]
pub struct LinePuzzle {
    pub size: usize,
    pub rows: Vec<u8>,
    pub columns: Vec<u8>,
}

/// The puzzle of a line without its line end, or the number that refuses it: 11,
/// then 1, 2 and 3.
pub fn line_puzzle(line: &[u8]) -> Result<LinePuzzle, u8> {
    let decimals = decimals(line).ok_or(11)?;
    let (&size, targets) = decimals.split_first().ok_or(11)?;
    let size = usize::from(size);
    // Both halves have the size's length exactly if there are 2N targets, so that
    // number 2 is the same question here as for the calls.
    let (rows, columns) = targets.split_at(targets.len().min(size));
    match puzzle_refusal(Unit::HALL, size, rows, columns) {
        Some(number) => Err(number),
        None => Ok(LinePuzzle {
            size,
            rows: rows.to_vec(),
            columns: columns.to_vec(),
        }),
    }
}

/// The numbers of a line, or `None` if it is too long or anything but decimals
/// with single spaces between. A space too many leaves an empty decimal.
fn decimals(line: &[u8]) -> Option<Vec<u8>> {
    if line.len() > LONGEST {
        return None;
    }
    line.split(|&byte| byte == b' ').map(decimal).collect()
}

/// A number from 0 to 255 without leading zeros.
fn decimal(digits: &[u8]) -> Option<u8> {
    let has_leading_zero = digits.len() > 1 && digits[0] == b'0';
    // Rust's own reader would let a plus sign by.
    if has_leading_zero || !digits.iter().all(u8::is_ascii_digit) {
        return None;
    }
    str::from_utf8(digits).ok()?.parse().ok()
}
