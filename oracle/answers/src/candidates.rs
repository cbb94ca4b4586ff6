//! Fields: size, rows, columns, marks, table before, answer, table after.

use inputs::Asked;

use crate::searching::{LIMIT, answered, begun, ended, refused_with_room, without_a_grid};
use crate::{Call, Record};

/// For each size: written, contradicted.
const OF_EACH_KIND: usize = 4;

pub fn records() -> Vec<Record> {
    let mut records = answered(Call::Candidates, OF_EACH_KIND, |_, asked| known(asked));
    records.extend(without_a_grid().iter().map(|asked| {
        assert_eq!(is_left(asked), Some(false));
        record(asked, remaining(asked))
    }));
    records.extend(refused_with_room(
        Call::Candidates,
        2,
        rules::candidates_refusal,
    ));
    records
}

/// The answer and the record, or `None` where the rules leave open which table is
/// written: no grid is left, or nobody knows of one.
fn known(asked: &Asked) -> Option<(u8, Record)> {
    let table = remaining(asked);
    match (&table, is_left(asked)) {
        (Some(_), Some(true)) => Some((0, record(asked, table))),
        (Some(_), _) => None,
        (None, Some(true)) => panic!("a grid is left: run compare"),
        (None, _) => Some((100, record(asked, None))),
    }
}

/// By the rules: the Rust keeps more.
fn remaining(asked: &Asked) -> Option<Vec<u16>> {
    let marks = rules::marks_of(&asked.marks);
    rules::remaining(asked.size, &asked.rows, &asked.columns, &marks)
}

/// Whether a grid is left, or `None` if the search for one is too long.
fn is_left(asked: &Asked) -> Option<bool> {
    let (size, marks) = (asked.size, rules::marks_of(&asked.marks));
    let (rows, columns) = (&asked.rows, &asked.columns);
    match rules::every_grid(size, rows, columns, &marks) {
        Some(grids) => Some(!grids.is_empty()),
        None => {
            let count = reference::count_within(LIMIT, size, rows, columns, &marks, 1);
            count.map(|count| count == 1)
        }
    }
}

fn record(asked: &Asked, table: Option<Vec<u16>>) -> Record {
    let bytes = table.map(|table| rules::word_bytes(&table));
    let number = if bytes.is_some() { 0 } else { 100 };
    let length = 2 * asked.size * asked.size;
    ended(
        begun(Call::Candidates, asked),
        length,
        number,
        bytes.as_deref(),
    )
}
