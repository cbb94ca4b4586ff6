//! Closed candidate tables: the four points that hold when nothing is left to strike.

use crate::lines::{Line, lines, supported};
use crate::values::{column_blacks, digits, row_blacks};

/// Whether a table is closed.
pub fn is_closed(size: usize, rows: &[u8], columns: &[u8], table: &[u16]) -> bool {
    let lines = lines(size, rows, columns);
    lines.iter().all(|line| lone_halves(size, line, table))
        && lines.iter().all(|line| single_places(size, line, table))
        && table.iter().all(|&entry| blacks_agree(size, entry))
        && has_support(size, &lines, table)
}

/// What is alone in its half occurs nowhere else along the line, and a digit nowhere
/// else along either line.
fn lone_halves(size: usize, line: &Line, table: &[u16]) -> bool {
    line.places.iter().all(|&place| {
        let alone = table[place] & line.half;
        let is_elsewhere = |other: usize| other != place && table[other] & alone != 0;
        let is_in_line = || line.places.iter().any(|&other| is_elsewhere(other));
        let is_in_both = || through(size, place).any(is_elsewhere);
        !alone.is_power_of_two() || !is_in_line() && (alone & digits(size) == 0 || !is_in_both())
    })
}

/// The places of both lines of a cell.
fn through(size: usize, place: usize) -> impl Iterator<Item = usize> {
    let is_in_line =
        move |other: &usize| other / size == place / size || other % size == place % size;
    (0..size * size).filter(is_in_line)
}

/// Where a value fits one cell of a line only, nothing else of that half is left there.
fn single_places(size: usize, line: &Line, table: &[u16]) -> bool {
    let entries = line.of(table);
    let candidates = (0..size + 3).map(|bit| 1 << bit);
    candidates
        .filter(|candidate| candidate & line.half != 0)
        .all(|candidate: u16| {
            let mut having = entries.iter().filter(|&entry| entry & candidate != 0);
            match (having.next(), having.next()) {
                (Some(&only), None) => only == candidate,
                _ => true,
            }
        })
}

/// Row blacks are possible exactly where column blacks are.
fn blacks_agree(size: usize, entry: u16) -> bool {
    let has_one = |blacks: [u16; 2]| blacks.iter().any(|black| entry & black != 0);
    has_one(row_blacks(size)) == has_one(column_blacks(size))
}

/// Whatever a cell can be belongs to a live arrangement of the line, a digit to one of
/// each line.
fn has_support(size: usize, lines: &[Line], table: &[u16]) -> bool {
    let supported = supported(size, lines, table);
    table
        .iter()
        .zip(supported)
        .all(|(entry, supported)| entry & !supported == 0)
}
