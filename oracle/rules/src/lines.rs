//! The lines of a table: a row or a column with the candidates of its own half.

use crate::arrangements::{Arrangement, arrangements};
use crate::values::{column_blacks, column_half, row_blacks, row_half};

/// A line of a puzzle.
pub struct Line {
    /// Its cells' places in the table.
    pub places: Vec<usize>,
    /// Its digits and its own blacks.
    pub half: u16,
    pub arrangements: Vec<Arrangement>,
}

impl Line {
    pub fn row(size: usize, row: usize, target: u8) -> Self {
        Self {
            places: (0..size).map(|column| row * size + column).collect(),
            half: row_half(size),
            arrangements: arrangements(size, target, row_blacks(size)),
        }
    }

    pub fn column(size: usize, column: usize, target: u8) -> Self {
        Self {
            places: (0..size).map(|row| row * size + column).collect(),
            half: column_half(size),
            arrangements: arrangements(size, target, column_blacks(size)),
        }
    }

    /// Its part of a table: the candidates of its half, place by place.
    pub fn of(&self, table: &[u16]) -> Vec<u16> {
        let entry = |&place: &usize| table[place] & self.half;
        self.places.iter().map(entry).collect()
    }

    /// Its arrangements that are live in a table.
    pub fn live(&self, table: &[u16]) -> impl Iterator<Item = &Arrangement> {
        let line = self.of(table);
        let arrangements = self.arrangements.iter();
        arrangements.filter(move |arrangement| arrangement.is_live(&line))
    }

    /// What its live arrangements allow at each of its places.
    pub fn supported(&self, table: &[u16]) -> Vec<u16> {
        let mut supported = vec![0; self.places.len()];
        for &(place, allowed) in self.live(table).flat_map(|live| &live.cells) {
            supported[place] |= allowed;
        }
        supported
    }
}

/// The rows, then the columns.
pub fn lines(size: usize, rows: &[u8], columns: &[u8]) -> Vec<Line> {
    let rows = (0..size).map(|row| Line::row(size, row, rows[row]));
    let columns = (0..size).map(|column| Line::column(size, column, columns[column]));
    rows.chain(columns).collect()
}

/// The candidates of each cell that lie in some live arrangement of its line, a digit
/// in one of both its lines.
pub fn supported(size: usize, lines: &[Line], table: &[u16]) -> Vec<u16> {
    let mut supported = vec![row_half(size) | column_half(size); table.len()];
    for line in lines {
        for (&place, allowed) in line.places.iter().zip(line.supported(table)) {
            supported[place] &= allowed | !line.half;
        }
    }
    supported
}
