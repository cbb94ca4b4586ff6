//! Fields: size, rows, columns, cells, answer.

use inputs::{Rng, SeededRng};
use rules::{BLACK, Unit};

use crate::{Call, Record};

/// For each size and each kind of sheet.
const OF_EACH_KIND: usize = 3;

pub fn records() -> Vec<Record> {
    let mut records = Vec::new();
    for size in 2..=9 {
        let mut rng = SeededRng::new(2000 + size as u64);
        for _ in 0..OF_EACH_KIND {
            records.extend(sheets(&mut rng, size));
        }
        records.extend(refused(&mut rng, size));
    }
    for (size, length) in [(0, 0), (1, 1), (10, 10), (255, 3)] {
        let targets = vec![0; length];
        records.push(record(
            size,
            &targets,
            &targets,
            &vec![BLACK; length * length],
        ));
    }
    records
}

/// A right sheet, the same with its cells or one of its targets changed, and the
/// same with each digit a 1, with its own sums: wrong from size 4 on.
fn sheets(rng: &mut SeededRng, size: usize) -> [Record; 5] {
    let (cells, rows, columns) = right(rng, size);
    let mut damaged = cells.clone();
    inputs::damage(rng, &mut damaged);
    let ones: Vec<u8> = cells
        .iter()
        .map(|&cell| if cell == BLACK { BLACK } else { 1 })
        .collect();
    let (ones_rows, ones_columns) = reference::target_sums(size, &ones).expect("two blacks a line");
    let other = |targets: &[u8], place: usize| {
        let mut targets = targets.to_vec();
        let greatest = rules::greatest_target(size) as u8;
        targets[place] = targets[place].checked_sub(1).unwrap_or(greatest);
        targets
    };
    let place = rng.below(size);
    [
        record(size, &rows, &columns, &cells),
        record(size, &rows, &columns, &damaged),
        record(size, &other(&rows, place), &columns, &cells),
        record(size, &rows, &other(&columns, place), &cells),
        record(size, &ones_rows, &ones_columns, &ones),
    ]
}

/// Refusals of lengths and targets, each with all later faults as well.
fn refused(rng: &mut SeededRng, size: usize) -> [Record; 5] {
    let (cells, rows, columns) = right(rng, size);
    let above = vec![rules::greatest_target(size) as u8 + 1; size];
    [
        record(size, &rows[1..], &above, &[]),
        record(size, &above, &[&columns[..], &[0]].concat(), &[]),
        record(size, &above, &columns, &[]),
        record(size, &rows, &above, &cells),
        record(size, &rows, &columns, &cells[1..]),
    ]
}

fn right(rng: &mut SeededRng, size: usize) -> (Vec<u8>, Vec<u8>, Vec<u8>) {
    let cells = inputs::grid(rng, size);
    let (rows, columns) = reference::target_sums(size, &cells).expect("a grid has sums");
    (cells, rows, columns)
}

fn record(size: usize, rows: &[u8], columns: &[u8], cells: &[u8]) -> Record {
    let rules = rules::mark_sheet(Unit::HALL, size, rows, columns, cells);
    if let Ok(right) = rules {
        let rust = reference::is_right(size, rows, columns, cells);
        assert_eq!(rust, right, "the Rust differs from the rules: run compare");
    }
    let number = match rules {
        Ok(right) => 100 + u8::from(right),
        Err(number) => number,
    };
    Record::of(Call::MarkSheet)
        .number(size)
        .field(rows)
        .field(columns)
        .field(cells)
        .number(number.into())
}
