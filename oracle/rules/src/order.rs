//! The order of grids: by the columns that the values of their rows have.

use std::cmp::Reverse;

use crate::{BLACK, Mark, keeps_mark};

/// A value of a row, with its number in marks: 8 the left black, 9 the right one, or a
/// digit.
#[derive(Clone, Copy, Debug, PartialEq, Eq)]
pub struct RowValue {
    pub row: usize,
    pub value: u8,
}

impl RowValue {
    /// The column in which a grid has it.
    pub fn column(self, size: usize, cells: &[u8]) -> usize {
        let has = |&column: &usize| keeps_mark(size, cells, self.taken(column));
        (0..size).find(has).expect("a grid has it")
    }

    /// The mark that takes it in a column.
    fn taken(self, column: usize) -> u16 {
        Mark::taking(self.row, column, self.value)
    }

    /// The columns further right that the rules leave it, if all earlier values stand where
    /// this grid has them.
    fn free_columns(self, size: usize, cells: &[u8]) -> impl Iterator<Item = usize> {
        let Self { row, value } = self;
        let above = move |column: usize, cell: u8| {
            let has = |&row: &usize| cells[row * size + column] == cell;
            (0..row).filter(has).count()
        };
        let is_free = move |&column: &usize| match value {
            8 | 9 => above(column, BLACK) < 2,
            digit => cells[row * size + column] < digit && above(column, digit) == 0,
        };
        let end = match value {
            8 => Self { row, value: 9 }.column(size, cells),
            _ => size,
        };
        (self.column(size, cells) + 1..end).filter(is_free)
    }
}

/// The values of all rows, one after another: of each row from the top its right black,
/// then its left one; then the digits from the greatest down, each in all rows from the
/// top.
pub fn sequence(size: usize) -> Vec<RowValue> {
    let in_rows = move |value| (0..size).map(move |row| RowValue { row, value });
    let blacks = (0..size).flat_map(|row| [9, 8].map(|value| RowValue { row, value }));
    let digits = (1..=size as u8 - 2).rev().flat_map(in_rows);
    blacks.chain(digits).collect()
}

/// The columns of these values in a grid.
pub fn columns_of(size: usize, cells: &[u8]) -> Vec<usize> {
    let values = sequence(size).into_iter();
    values.map(|value| value.column(size, cells)).collect()
}

/// Puts grids in order: at the first value that two have in different columns, the grid
/// that has it further right comes first.
pub fn put_in_order(size: usize, grids: &mut [Vec<u8>]) {
    grids.sort_by_cached_key(|cells| Reverse(columns_of(size, cells)));
}

/// Lists of marks: each grid that comes before this one keeps just one of them, and no
/// other grid keeps any. A list takes the first values of the sequence where this grid has
/// them, and the next one further right: taken there and not rejected elsewhere, since it is
/// not seen at once that a value has no place left.
pub fn marks_before(size: usize, cells: &[u8]) -> Vec<Vec<u16>> {
    let mut lists = Vec::new();
    let mut taken = Vec::new();
    for value in sequence(size) {
        let columns = value.free_columns(size, cells);
        let further_right = columns.map(|column| value.taken(column));
        lists.extend(further_right.map(|mark| [&taken[..], &[mark]].concat()));
        taken.push(value.taken(value.column(size, cells)));
    }
    lists
}
