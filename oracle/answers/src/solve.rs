//! Fields: size, rows, columns, marks, cells before, answer, cells after.

use inputs::Asked;
use reference::Solved;

use crate::searching::{LIMIT, answered, begun, ended, refused_with_room};
use crate::{Call, Record};

/// For each size and each verdict.
const OF_EACH_KIND: usize = 3;

pub fn records() -> Vec<Record> {
    let mut records = answered(Call::Solve, OF_EACH_KIND, |_, asked| solved(asked));
    records.extend(refused_with_room(Call::Solve, 1, rules::solve_refusal));
    records
}

/// The verdict and the record, or `None` if the search is too long.
fn solved(asked: &Asked) -> Option<(u8, Record)> {
    let Asked {
        size,
        rows,
        columns,
        marks,
    } = asked;
    let marks = rules::marks_of(marks);
    let (number, cells) = match reference::solve_within(LIMIT, *size, rows, columns, &marks)? {
        Solved::Unsolvable => (100, None),
        Solved::Unique(cells) => (101, Some(cells)),
        // The first by the rules, which the Rust need not find first.
        Solved::Multiple(_) => (102, rules::first_grid(*size, rows, columns, &marks)),
    };
    assert_eq!(cells.is_some(), number > 100, "run compare");
    if let Some(cells) = &cells {
        let is_grid = rules::satisfies(*size, rows, columns, &marks, cells);
        assert!(is_grid, "run compare");
    }
    let record = begun(Call::Solve, asked);
    Some((number, ended(record, size * size, number, cells.as_deref())))
}
