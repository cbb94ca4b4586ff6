//! What each call has to answer, written from the requirements and from nothing
//! else: neither the engine nor the published Rust enters here.
//!
//! A refusal is its number. Where a call refuses, it writes nothing.

mod arrangements;
mod closed;
mod every;
mod fault;
mod first_grid;
mod grids;
mod line;
mod lines;
mod marking;
mod marks;
mod order;
mod remaining;
mod searching;
mod subsets;
mod sums;
mod table;
mod unit;
mod values;

pub use arrangements::{Arrangement, arrangements};
pub use closed::is_closed;
pub use every::{LISTED, every_grid};
pub use fault::{LineFault, line_fault};
pub use first_grid::{first_grid, first_grids};
pub use grids::{keeps_mark, satisfies, ways};
pub use line::{LinePuzzle, line_puzzle};
pub use marking::mark_sheet;
pub use marks::{Mark, marks_refusal};
pub use order::{RowValue, columns_of, marks_before, put_in_order, sequence};
pub use remaining::remaining;
pub use searching::{candidates_refusal, count_refusal, marks_of, solve_refusal, word_bytes};
pub use subsets::{Subset, printed_subsets, subsets};
pub use sums::{Sums, line_sum, target_sums};
pub use table::{has_grid, is_filled, shows_mark};
pub use unit::Unit;
pub use values::{column_blacks, row_blacks};

/// Cell byte of a cell that holds nothing.
pub const EMPTY: u8 = 0;
/// Cell byte of a black cell.
pub const BLACK: u8 = 255;

/// The greatest sum that the digits 1 to size - 2 can have.
pub fn greatest_target(size: usize) -> usize {
    (size - 2) * (size - 1) / 2
}

/// Number 1: the size is not 2 to 9.
pub fn size_refusal(size: usize) -> Option<u8> {
    (!(2..=9).contains(&size)).then_some(1)
}

/// Number 2: not one target for each row and each column.
pub fn lengths_refusal(size: usize, rows: usize, columns: usize) -> Option<u8> {
    (rows != size || columns != size).then_some(2)
}

/// Number 3: a target that no line can have.
pub fn targets_refusal(size: usize, rows: &[u8], columns: &[u8]) -> Option<u8> {
    let too_large = |&target: &u8| usize::from(target) > greatest_target(size);
    rows.iter().chain(columns).any(too_large).then_some(3)
}

/// Number 7: not one entry for each cell.
pub fn cells_refusal(size: usize, length: usize) -> Option<u8> {
    (length != size * size).then_some(7)
}

/// Numbers 1, 18, 2 and 3, in this order: what every call with a puzzle checks
/// first.
pub fn puzzle_refusal(unit: Unit, size: usize, rows: &[u8], columns: &[u8]) -> Option<u8> {
    size_refusal(size)
        .or_else(|| unit.size_refusal(size))
        .or_else(|| lengths_refusal(size, rows.len(), columns.len()))
        .or_else(|| targets_refusal(size, rows, columns))
}
