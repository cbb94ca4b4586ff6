//! What is held to the rules: the linked library, or a faulty stand-in by which
//! the tests see that faults are found.

use doppelblock::{Candidates, Sheet, Verdict};
use rules::Unit;

/// What a searching call is asked: a puzzle and the bytes of its marks.
#[derive(Clone, Copy, Debug)]
pub struct Question<'a> {
    pub size: usize,
    pub rows: &'a [u8],
    pub columns: &'a [u8],
    pub marks: &'a [u8],
}

/// The exported calls of a unit, each answering with the number that the library
/// returns.
pub trait Engine: Sync {
    fn target_sums(
        &self,
        unit: Unit,
        size: usize,
        cells: &[u8],
        rows: &mut [u8],
        columns: &mut [u8],
    ) -> u8;
    fn mark_sheet(&self, unit: Unit, size: usize, rows: &[u8], columns: &[u8], cells: &[u8]) -> u8;
    fn count(&self, unit: Unit, asked: Question, cap: u64, count: &mut u64) -> u8;
    fn solve(&self, unit: Unit, asked: Question, cells: &mut [u8]) -> u8;
    fn candidates(&self, unit: Unit, asked: Question, table: &mut [u8]) -> u8;
}

/// The library, called as its users call it.
pub struct Linked;

fn linked(unit: Unit) -> doppelblock::Unit {
    if unit == Unit::HALL {
        doppelblock::Unit::Hall
    } else {
        doppelblock::Unit::Classroom
    }
}

impl Engine for Linked {
    fn target_sums(
        &self,
        unit: Unit,
        size: usize,
        cells: &[u8],
        rows: &mut [u8],
        columns: &mut [u8],
    ) -> u8 {
        match linked(unit).target_sums(size, cells, rows, columns) {
            Ok(()) => 0,
            Err(refusal) => refusal.number(),
        }
    }

    fn mark_sheet(&self, unit: Unit, size: usize, rows: &[u8], columns: &[u8], cells: &[u8]) -> u8 {
        match linked(unit).mark_sheet(size, rows, columns, cells) {
            Ok(Sheet::Wrong) => 100,
            Ok(Sheet::Right) => 101,
            Err(refusal) => refusal.number(),
        }
    }

    fn count(&self, unit: Unit, asked: Question, cap: u64, count: &mut u64) -> u8 {
        let (rows, columns, marks) = (asked.rows, asked.columns, asked.marks);
        match linked(unit).count_into(asked.size, rows, columns, marks, cap, count) {
            Ok(()) => 0,
            Err(refusal) => refusal.number(),
        }
    }

    fn solve(&self, unit: Unit, asked: Question, cells: &mut [u8]) -> u8 {
        let (rows, columns, marks) = (asked.rows, asked.columns, asked.marks);
        match linked(unit).solve(asked.size, rows, columns, marks, cells) {
            Ok(Verdict::Unsolvable) => 100,
            Ok(Verdict::Unique) => 101,
            Ok(Verdict::Multiple) => 102,
            Err(refusal) => refusal.number(),
        }
    }

    fn candidates(&self, unit: Unit, asked: Question, table: &mut [u8]) -> u8 {
        let (rows, columns, marks) = (asked.rows, asked.columns, asked.marks);
        match linked(unit).candidates(asked.size, rows, columns, marks, table) {
            Ok(Candidates::Written) => 0,
            Ok(Candidates::Contradicted) => 100,
            Err(refusal) => refusal.number(),
        }
    }
}
