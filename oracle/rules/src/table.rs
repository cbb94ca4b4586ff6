use crate::values::{bit, column_half, row_half};
use crate::{BLACK, Mark};

/// What a written table has to show of a mark: a rejected candidate is gone, a
/// taken one is alone in its half (a digit: alone in its cell).
pub fn shows_mark(size: usize, table: &[u16], mark: u16) -> bool {
    let mark = Mark::unpack(mark);
    let entry = table[mark.row * size + mark.column];
    let bit = bit(size, mark.value);
    let half = match mark.value {
        8 | 9 => row_half(size),
        10 | 11 => column_half(size),
        _ => row_half(size) | column_half(size),
    };
    if mark.rejected {
        entry & bit == 0
    } else {
        entry & half == bit
    }
}

/// What a written table has to show whatever the marks: each cell has a candidate.
pub fn is_filled(table: &[u16]) -> bool {
    table.iter().all(|&entry| entry != 0)
}

/// Whether the table has each value of this grid.
pub fn has_grid(size: usize, table: &[u16], cells: &[u8]) -> bool {
    (0..size * size)
        .all(|place| table[place] & values(size, cells, place) == values(size, cells, place))
}

/// The candidates of a filled cell: a digit, or a row black and a column black.
fn values(size: usize, cells: &[u8], place: usize) -> u16 {
    let (row, column) = (place / size, place % size);
    if cells[place] != BLACK {
        return bit(size, cells[place]);
    }
    let is_left = !cells[row * size..place].contains(&BLACK);
    let is_upper = (0..row).all(|r| cells[r * size + column] != BLACK);
    let across = if is_left { 8 } else { 9 };
    let down = if is_upper { 10 } else { 11 };
    bit(size, across) | bit(size, down)
}
