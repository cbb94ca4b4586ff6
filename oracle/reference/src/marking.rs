use rules::{BLACK, Mark};

use crate::{count, target_sums};

/// Whether a sheet is right. The Rust has no call for it: a right one has the
/// targets as its sums, holds blacks and digits only, and is counted as a grid
/// when the value of each of its cells is marked as taken.
pub fn is_right(size: usize, rows: &[u8], columns: &[u8], cells: &[u8]) -> bool {
    let sums = target_sums(size, cells);
    if sums != Ok((rows.to_vec(), columns.to_vec())) {
        return false;
    }
    let digits = 1..=size as u8 - 2;
    let is_symbol = |cell: &u8| *cell == BLACK || digits.contains(cell);
    cells.iter().all(is_symbol) && count(size, rows, columns, &all_taken(size, cells), 2) == 1
}

/// The first black of a row is its left one, and any other its right one.
fn all_taken(size: usize, cells: &[u8]) -> Vec<u16> {
    let value = |place: usize| match cells[place] {
        BLACK if cells[place / size * size..place].contains(&BLACK) => 9,
        BLACK => 8,
        digit => digit,
    };
    let mark = |place: usize| Mark::taking(place / size, place % size, value(place));
    (0..size * size).map(mark).collect()
}
