//! The first grids by a plain search, for sizes that have too many grids to list.

use crate::lines::{Line, lines};
use crate::order::{RowValue, sequence};
use crate::remaining::{set, strike_all};
use crate::values::{bit, digits, row_half};
use crate::{BLACK, is_filled, remaining};

/// The first grid of a puzzle and marks in the order of grids, or `None` if there is none.
pub fn first_grid(size: usize, rows: &[u8], columns: &[u8], marks: &[u16]) -> Option<Vec<u8>> {
    first_grids(size, rows, columns, marks, 1).pop()
}

/// The first grids of a puzzle and marks in the order of grids, all or so many. Small and
/// slow.
pub fn first_grids(
    size: usize,
    rows: &[u8],
    columns: &[u8],
    marks: &[u16],
    cap: usize,
) -> Vec<Vec<u8>> {
    let lines = lines(size, rows, columns);
    let mut found = Vec::new();
    if let Some(table) = remaining(size, rows, columns, marks) {
        search(size, &lines, table, cap, &mut found);
    }
    found
}

/// Takes a value of a cell first and rejects it then, until a table is settled.
fn search(size: usize, lines: &[Line], mut table: Vec<u16>, cap: usize, found: &mut Vec<Vec<u8>>) {
    while is_filled(&table) && found.len() < cap {
        let Some((place, value)) = branch(size, &table) else {
            found.push(table.iter().map(|&entry| cell(size, entry)).collect());
            return;
        };
        let mut taken = table.clone();
        set(size, &mut taken, place, value);
        strike_all(size, lines, &mut taken);
        search(size, lines, taken, cap, found);
        table[place] &= !value;
        strike_all(size, lines, &mut table);
    }
}

/// The first value in the sequence of rows' values that an open cell of its row has, in
/// the rightmost such cell. A cell is open if its row half has a choice.
fn branch(size: usize, table: &[u16]) -> Option<(usize, u16)> {
    let is_open = |place: usize| (table[place] & row_half(size)).count_ones() > 1;
    let mut values = sequence(size).into_iter();
    values.find_map(|RowValue { row, value }| {
        let value = bit(size, value);
        let has = |&place: &usize| is_open(place) && table[place] & value != 0;
        let place = (row * size..(row + 1) * size).rfind(has)?;
        Some((place, value))
    })
}

/// What a settled cell holds.
fn cell(size: usize, entry: u16) -> u8 {
    if entry & digits(size) == 0 {
        BLACK
    } else {
        entry.trailing_zeros() as u8
    }
}
