//! Safe calls into the proved Doppelblock key engine.
//!
//! A grid is a slice of cell bytes, row by row: [`EMPTY`], a number from 1 to
//! 254, or [`BLACK`]. Slices may have any length and the size may be any
//! number; what a call cannot use it refuses with a [`Refusal`], and then no
//! byte was written.
//!
//! ```
//! use doppelblock::{BLACK as B, target_sums};
//!
//! let cells = [B, 1, B, 1, B, B, B, B, 1];
//! let (mut rows, mut columns) = ([0; 3], [0; 3]);
//! target_sums(3, &cells, &mut rows, &mut columns)?;
//! assert_eq!((rows, columns), ([1, 0, 0], [1, 0, 0]));
//! # Ok::<(), doppelblock::Refusal>(())
//! ```
//!
//! A puzzle is its row and column targets. Pencil marks ([`Mark`]) narrow it
//! further; a list of them is a slice with two bytes for each mark.
//!
//! ```
//! use doppelblock::{BLACK as B, Mark, Verdict, count, solve};
//!
//! let (rows, columns) = ([0, 1, 0], [0, 1, 0]);
//! assert_eq!(count(3, &rows, &columns, &[], 100)?, 2);
//!
//! let marks = Mark::list(&[Mark::reject(0, 0, 1)]);
//! let mut cells = [0; 9];
//! let verdict = solve(3, &rows, &columns, &marks, &mut cells)?;
//! assert_eq!(verdict, Verdict::Unique);
//! assert_eq!(cells, [B, B, 1, B, 1, B, 1, B, B]);
//! # Ok::<(), doppelblock::Refusal>(())
//! ```
//!
//! The calls that search call themselves inside the engine; a thread with a
//! stack of 2 MiB, the default of `std::thread`, has room.
//!
//! # Units
//!
//! A [`Unit`] is who asks: the hall, which takes sizes up to 9 and any list of
//! marks, or a classroom, which takes sizes up to 6 and lists of at most 40 marks.
//! Each call is a method of it. The functions of this crate are the hall's calls.
//!
//! ```
//! use doppelblock::{Mark, Refusal, Unit};
//!
//! let (rows, columns) = ([8, 2, 15, 1, 0, 0, 3], [6, 10, 0, 4, 8, 0, 7]);
//! let count = |unit: Unit| unit.count(7, &rows, &columns, &[], 100);
//! assert_eq!(count(Unit::Classroom), Err(Refusal::SizeLimit(6)));
//! assert_eq!(count(Unit::Hall), Ok(1));
//!
//! let marks = Mark::list(&[Mark::reject(0, 0, 1); 41]);
//! let count = |unit: Unit| unit.count(3, &[0, 1, 0], &[0, 1, 0], &marks, 100);
//! assert_eq!(count(Unit::Classroom), Err(Refusal::ListLimit(40)));
//! assert_eq!(count(Unit::Hall), Ok(1));
//! ```

#![deny(unsafe_code)]
#![warn(missing_docs)]

mod ffi;
mod mark;
mod refusal;
mod unit;

pub use mark::{LEFT_BLACK, LOWER_BLACK, Mark, RIGHT_BLACK, UPPER_BLACK};
pub use refusal::Refusal;
pub use unit::Unit;

/// Cell byte of a cell that holds nothing.
pub const EMPTY: u8 = 0;
/// Cell byte of a black cell.
pub const BLACK: u8 = 255;

/// Whether a sheet is a right answer to its puzzle.
#[derive(Clone, Copy, Debug, PartialEq, Eq, Hash)]
pub enum Sheet {
    /// The sheet keeps the puzzle rules: every digit once in each line, two
    /// blacks, all sums.
    Right,
    /// It does not.
    Wrong,
}

/// How many grids keep a puzzle and its marks.
#[derive(Clone, Copy, Debug, PartialEq, Eq, Hash)]
pub enum Verdict {
    /// No grid does.
    Unsolvable,
    /// Exactly one does.
    Unique,
    /// Two or more do.
    Multiple,
}

/// What became of a candidate table.
#[derive(Clone, Copy, Debug, PartialEq, Eq, Hash)]
pub enum Candidates {
    /// It was written. Even so there may be no grid.
    Written,
    /// A cell has no candidate left, so there is no grid; nothing was written.
    Contradicted,
}

/// [`Unit::target_sums`] in the hall.
///
/// # Errors
///
/// Those of [`Unit::target_sums`], without [`Refusal::SizeLimit`].
pub fn target_sums(
    size: usize,
    cells: &[u8],
    rows: &mut [u8],
    columns: &mut [u8],
) -> Result<(), Refusal> {
    Unit::Hall.target_sums(size, cells, rows, columns)
}

/// [`Unit::mark_sheet`] in the hall.
///
/// # Errors
///
/// Those of [`Unit::mark_sheet`], without [`Refusal::SizeLimit`].
pub fn mark_sheet(
    size: usize,
    rows: &[u8],
    columns: &[u8],
    cells: &[u8],
) -> Result<Sheet, Refusal> {
    Unit::Hall.mark_sheet(size, rows, columns, cells)
}

/// [`Unit::count`] in the hall.
///
/// # Errors
///
/// Those of [`Unit::count`], without [`Refusal::SizeLimit`] and
/// [`Refusal::ListLimit`].
pub fn count(
    size: usize,
    rows: &[u8],
    columns: &[u8],
    marks: &[u8],
    cap: u64,
) -> Result<u64, Refusal> {
    Unit::Hall.count(size, rows, columns, marks, cap)
}

/// [`Unit::count_into`] in the hall.
///
/// # Errors
///
/// Those of [`count`].
pub fn count_into(
    size: usize,
    rows: &[u8],
    columns: &[u8],
    marks: &[u8],
    cap: u64,
    number: &mut u64,
) -> Result<(), Refusal> {
    Unit::Hall.count_into(size, rows, columns, marks, cap, number)
}

/// [`Unit::solve`] in the hall.
///
/// # Errors
///
/// Those of [`count`], then [`Refusal::CellsLength`].
pub fn solve(
    size: usize,
    rows: &[u8],
    columns: &[u8],
    marks: &[u8],
    cells: &mut [u8],
) -> Result<Verdict, Refusal> {
    Unit::Hall.solve(size, rows, columns, marks, cells)
}

/// [`Unit::candidates`] in the hall.
///
/// # Errors
///
/// Those of [`count`], then [`Refusal::CellsLength`].
pub fn candidates(
    size: usize,
    rows: &[u8],
    columns: &[u8],
    marks: &[u8],
    table: &mut [u8],
) -> Result<Candidates, Refusal> {
    Unit::Hall.candidates(size, rows, columns, marks, table)
}
