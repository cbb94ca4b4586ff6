//! Fields: size, cells, rows before, columns before, answer, rows after,
//! columns after.

use inputs::{Rng, SeededRng};
use rules::{BLACK, Unit};

use crate::record::{of_each_kind, pattern};
use crate::{Call, Record};

/// For each size and each answer; a size that has fewer gives fewer.
const OF_EACH_KIND: usize = 6;

/// Enough to meet every answer of every size that often.
const DRAWS: usize = 4000;

pub fn records() -> Vec<Record> {
    let mut records = Vec::new();
    for size in 2..=9 {
        records.extend(drawn(size));
    }
    records.extend(named());
    records.extend(refused());
    records
}

/// The same number of records for each answer, as far as they are met.
fn drawn(size: usize) -> Vec<Record> {
    let mut rng = SeededRng::new(1000 + size as u64);
    of_each_kind(&mut rng, DRAWS, OF_EACH_KIND, |rng| {
        let cells = any_cells(rng, size);
        Some(answered(size, &cells))
    })
}

fn any_cells(rng: &mut SeededRng, size: usize) -> Vec<u8> {
    match rng.below(5) {
        0 => inputs::grid(rng, size),
        1 => {
            let mut cells = inputs::grid(rng, size);
            inputs::damage(rng, &mut cells);
            cells
        }
        2 => inputs::random_cells(rng, size),
        3 => inputs::blacks_of_a_grid(rng, size),
        _ => inputs::sums_near_255(rng, size),
    }
}

/// The answer's number and the record of cells that both sides take, where the Rust
/// agrees with the rules.
fn answered(size: usize, cells: &[u8]) -> (u8, Record) {
    let rust = reference::target_sums(size, cells);
    let rules = rules::target_sums(Unit::HALL, size, cells, size, size);
    let number = match (rust, rules) {
        (Err(10), Err(9)) => 9,
        (rust, rules) if rust == rules => rust.err().unwrap_or(0),
        (rust, rules) => panic!("Rust {rust:?}, rules {rules:?}: run compare"),
    };
    (number, record(size, cells, size, size))
}

/// First rows that are worth a record of their own, over rows without a fault.
fn named() -> Vec<Record> {
    const B: u8 = BLACK;
    let first_rows = [
        [B, 3, 254, 0, B], // the Rust stops at the overflow
        [B, 0, 254, 3, B],
        [B, 1, 254, B, 1], // 255 is still a sum
        [B, 2, 254, B, 1],
        [B, 254, B, 0, 0], // outside the blacks no cell is looked at
        [0, 0, 0, B, B],
        [B, B, B, 1, 1],
        [1, 1, 1, 1, B],
    ];
    first_rows
        .iter()
        .map(|row| {
            let mut cells = row.to_vec();
            for row in 1..5 {
                cells.extend((0..5).map(|c| if c == row || c == row - 1 { B } else { 1 }));
            }
            answered(5, &cells).1
        })
        .collect()
}

/// Refusals of sizes and lengths, with all later faults as well.
fn refused() -> Vec<Record> {
    let mut records = Vec::new();
    for (size, length) in [(0, 0), (1, 1), (10, 10), (255, 3)] {
        records.push(record(size, &vec![BLACK; length * length], length, length));
    }
    for size in 2..=9 {
        let grid = inputs::grid(&mut SeededRng::new(size as u64), size);
        let mut long = grid.clone();
        long.push(BLACK);
        records.push(record(size, &grid[1..], size, size));
        records.push(record(size, &long, size - 1, size));
        records.push(record(size, &grid, size - 1, size));
        records.push(record(size, &grid, size, size + 1));
    }
    records
}

fn record(size: usize, cells: &[u8], rows_len: usize, columns_len: usize) -> Record {
    let (rows, columns) = (pattern(rows_len), pattern(columns_len));
    let answer = rules::target_sums(Unit::HALL, size, cells, rows_len, columns_len);
    let number = answer.as_ref().err().copied().unwrap_or(0);
    let (rows_after, columns_after) = answer.unwrap_or((rows.clone(), columns.clone()));
    Record::of(Call::TargetSums)
        .number(size)
        .field(cells)
        .field(&rows)
        .field(&columns)
        .number(number.into())
        .field(&rows_after)
        .field(&columns_after)
}
