//! Fields: size, rows, columns, marks, cap, count before, answer, count after.

use inputs::{Asked, Rng};

use rules::Unit;

use crate::searching::{LIMIT, answered, begun, ended, refused, two_grids};
use crate::{Call, Record};

/// For each size: no grid, fewer than the cap, as many as the cap, a cap of 0.
const OF_EACH_KIND: usize = 2;

pub fn records() -> Vec<Record> {
    let mut records = answered(Call::Count, OF_EACH_KIND, |rng, asked| {
        let cap = [0, 1, 2, 2, 3, 1000][rng.below(6)];
        counted(asked, cap)
    });
    for cap in 0..4 {
        records.extend(counted(&two_grids(&[]), cap).map(|(_, record)| record));
    }
    records.extend(refused().iter().map(|asked| {
        let number = rules::count_refusal(
            Unit::HALL,
            asked.size,
            &asked.rows,
            &asked.columns,
            &asked.marks,
        );
        record(asked, 2, number.expect("a refusal"), None)
    }));
    records
}

/// The kind of answer and the record, or `None` if the search is too long.
fn counted(asked: &Asked, cap: u64) -> Option<(u8, Record)> {
    let (size, marks) = (asked.size, rules::marks_of(&asked.marks));
    let (rows, columns) = (&asked.rows, &asked.columns);
    let count = reference::count_within(LIMIT, size, rows, columns, &marks, cap as usize)? as u64;
    if let Some(grids) = rules::every_grid(size, rows, columns, &marks) {
        assert_eq!(count, cap.min(grids.len() as u64), "run compare");
    }
    let kind = match count {
        _ if cap == 0 => 0,
        0 => 1,
        _ if count == cap => 2,
        _ => 3,
    };
    Some((kind, record(asked, cap, 0, Some(count))))
}

fn record(asked: &Asked, cap: u64, answer: u8, count: Option<u64>) -> Record {
    let record = begun(Call::Count, asked).field(&cap.to_be_bytes());
    let count = count.map(u64::to_be_bytes);
    ended(record, 8, answer, count.as_ref().map(|bytes| &bytes[..]))
}
