//! The candidates that remain: everything is struck that one of the points asks for,
//! round after round, in no order that matters.

use crate::lines::{Line, lines, supported};
use crate::values::{bit, column_blacks, column_half, digits, row_blacks, row_half};
use crate::{Mark, is_filled};

/// The table of a puzzle after these marks, or `None` if a cell has no candidate. Marks
/// are applied in order to the table before them, with nothing struck between.
pub fn remaining(size: usize, rows: &[u8], columns: &[u8], marks: &[u16]) -> Option<Vec<u16>> {
    let lines = lines(size, rows, columns);
    let mut table = vec![row_half(size) | column_half(size); size * size];
    strike_all(size, &lines, &mut table);
    for &mark in marks {
        apply(size, &mut table, Mark::unpack(mark));
    }
    strike_all(size, &lines, &mut table);
    is_filled(&table).then_some(table)
}

/// A rejected candidate is struck, and a cell is set to a taken one.
fn apply(size: usize, table: &mut [u16], mark: Mark) {
    let place = mark.row * size + mark.column;
    let value = bit(size, mark.value);
    if mark.rejected {
        table[place] &= !value;
    } else {
        set(size, table, place, value);
    }
}

/// Strikes until nothing changes, or until a cell has no candidate.
pub fn strike_all(size: usize, lines: &[Line], table: &mut [u16]) {
    let mut before = Vec::new();
    while before != table && is_filled(table) {
        before = table.to_vec();
        for line in lines {
            settle_lone_halves(size, line, table);
            settle_single_places(size, line, table);
        }
        for entry in table.iter_mut() {
            strike_blacks(size, entry);
        }
        let supported = supported(size, lines, table);
        table
            .iter_mut()
            .zip(supported)
            .for_each(|(entry, supported)| *entry &= supported);
    }
}

/// Where something is alone in its half, the cell is set to it.
fn settle_lone_halves(size: usize, line: &Line, table: &mut [u16]) {
    for &place in &line.places {
        let alone = table[place] & line.half;
        if alone.is_power_of_two() {
            set(size, table, place, alone);
        }
    }
}

/// Where a value fits one cell of a line only, that cell is set to it.
fn settle_single_places(size: usize, line: &Line, table: &mut [u16]) {
    let candidates = (0..size + 3).map(|bit| 1 << bit);
    for candidate in candidates.filter(|candidate| candidate & line.half != 0) {
        let has_it = |place: &&usize| table[**place] & candidate != 0;
        let mut having = line.places.iter().filter(has_it);
        if let (Some(&only), None) = (having.next(), having.next()) {
            set(size, table, only, candidate);
        }
    }
}

/// Blacks of one line go where the other line's cannot stand.
fn strike_blacks(size: usize, entry: &mut u16) {
    let [left, right] = row_blacks(size);
    let [upper, lower] = column_blacks(size);
    if *entry & (left | right) == 0 {
        *entry &= !(upper | lower);
    }
    if *entry & (upper | lower) == 0 {
        *entry &= !(left | right);
    }
}

/// Sets a cell to a value: the same value is struck elsewhere in its lines, and so are
/// the other values of its half. Any black is also known to have none of its row's or
/// its column's second blacks before it and none of the first ones behind it.
pub fn set(size: usize, table: &mut [u16], place: usize, value: u16) {
    let (row, column) = (place / size, place % size);
    // Each line through the cell: its first place and its step, where the cell is in it,
    // its half and its blacks.
    let across = (row * size, 1, column, row_half(size), row_blacks(size));
    let down = (column, size, row, column_half(size), column_blacks(size));
    for (first, step, at, half, blacks) in [across, down] {
        for other in (0..size).filter(|&other| other != at) {
            let struck = struck_beside(size, value, half, blacks, other < at);
            table[first + other * step] &= !struck;
        }
        if half & value != 0 {
            table[place] &= value | !half;
        }
    }
}

/// What a value strikes in another cell of a line with this half and these blacks.
fn struck_beside(size: usize, value: u16, half: u16, blacks: [u16; 2], is_before: bool) -> u16 {
    let [first, second] = blacks;
    let out_of_order = match is_before {
        _ if value & digits(size) != 0 => 0,
        true => second,
        false => first,
    };
    value & half | out_of_order
}
