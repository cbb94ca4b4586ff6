//! Fields: size, target, cells of the line, answer: the number of the step that
//! fails first (1 digits, 2 blacks, 3 sum), 0 for none.

use inputs::{Rng, SeededRng};
use rules::{BLACK, EMPTY, LineFault, line_fault, line_sum};

use crate::record::of_each_kind;
use crate::{Call, Record};

/// For each size from 4 on and each answer.
const OF_EACH_ANSWER: usize = 10;

/// Every line of sizes 2 and 3 over a few bytes; of larger sizes some of each
/// answer.
pub fn records() -> Vec<Record> {
    let mut records = Vec::new();
    records.extend(every_line(2, &[EMPTY, 1, 254, BLACK]));
    records.extend(every_line(3, &[EMPTY, 1, 2, 254, BLACK]));
    for size in 4..=9 {
        let mut rng = SeededRng::new(6000 + size as u64);
        records.extend(of_each_kind(&mut rng, 2000, OF_EACH_ANSWER, |rng| {
            let line = drawn(rng, size);
            let target = line_sum(&line).unwrap_or(0);
            Some(answered(&line, target ^ u8::from(rng.below(3) == 0)))
        }));
    }
    records
}

fn every_line(size: usize, bytes: &'static [u8]) -> impl Iterator<Item = Record> {
    let with = |line: Vec<u8>| [0, 1].map(|target| answered(&line, target).1);
    inputs::all_lists(size, bytes).flat_map(with)
}

/// A row of a grid, in which up to two cells may hold another byte.
fn drawn(rng: &mut SeededRng, size: usize) -> Vec<u8> {
    let mut line = inputs::grid(rng, size)[..size].to_vec();
    let others = [EMPTY, size as u8 - 2, size as u8 - 1, 15, 254, BLACK];
    for _ in 0..rng.below(3) {
        line[rng.below(size)] = others[rng.below(others.len())];
    }
    line
}

fn answered(line: &[u8], target: u8) -> (u8, Record) {
    let step = match line_fault(line, target) {
        None => 0,
        Some(LineFault::Digits) => 1,
        Some(LineFault::Blacks) => 2,
        Some(LineFault::Sum) => 3,
    };
    let record = Record::of(Call::LineCheck)
        .number(line.len())
        .number(target.into())
        .field(line)
        .number(step.into());
    (step, record)
}
