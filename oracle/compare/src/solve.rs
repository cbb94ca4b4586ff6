//! Solving: the verdict and a grid. The verdict and the grid of a unique puzzle come
//! from the Rust; where there are several grids, the first of them by the rules is shown.

use inputs::Asked;
use reference::{Limit, Solved};
use rules::{Mark, Unit};

use crate::engine::{Engine, Question};
use crate::harness::Label;
use crate::searching::{Accepted, Cells, Expected, Left, Right, Room, Searching, disagree};

pub struct Solve;

/// Nodes and not time, so that the same inputs are skipped everywhere.
const LIMIT: Limit = Limit::Nodes(200);

impl Searching for Solve {
    type Rest = Cells;
    type Written = u8;

    const NAME: &'static str = "solve";

    fn refusal(unit: Unit, asked: &Asked, Room(length): Cells) -> Option<u8> {
        rules::solve_refusal(
            unit,
            asked.size,
            &asked.rows,
            &asked.columns,
            &asked.marks,
            length,
        )
    }

    fn expected<'a>(
        accepted: &'a Accepted,
        _cells: Cells,
    ) -> Result<Option<Expected<'a, u8>>, String> {
        let (rows, columns) = (accepted.rows, accepted.columns);
        let solved = reference::solve_within(LIMIT, accepted.size, rows, columns, &accepted.marks);
        let Some(solved) = solved else {
            return Ok(None);
        };
        agree(accepted, &solved)?;
        Ok(Some(match solved {
            Solved::Unsolvable => exactly(100, None, "unsolvable"),
            Solved::Unique(cells) => exactly(101, Some(cells), "unique"),
            Solved::Multiple(by_rust) => {
                let judge = move |engine: &dyn Engine, left: &Left<u8>| {
                    first_of_several(engine, accepted, &by_rust, left)
                };
                Expected::Judged(Box::new(judge))
            }
        }))
    }

    fn room(Room(length): Cells) -> usize {
        length
    }

    fn run(
        engine: &dyn Engine,
        unit: Unit,
        asked: Question,
        _cells: Cells,
        cells: &mut [u8],
    ) -> u8 {
        engine.solve(unit, asked, cells)
    }
}

fn exactly(number: u8, written: Option<Vec<u8>>, label: Label) -> Expected<'static, u8> {
    Expected::Exactly {
        number,
        written,
        label,
    }
}

/// The Rust's grid keeps the rules and, where every grid is listed, its verdict is
/// theirs.
fn agree(accepted: &Accepted, solved: &Solved) -> Result<(), String> {
    let (verdict, cells) = match solved {
        Solved::Unsolvable => (0, None),
        Solved::Unique(cells) => (1, Some(cells)),
        Solved::Multiple(cells) => (2, Some(cells)),
    };
    if cells.is_some_and(|cells| !is_grid(accepted, cells)) {
        return Err(format!("the Rust breaks the rules: {solved:x?}"));
    }
    match accepted.grids() {
        Some(grids) if grids.len().min(2) != verdict => Err(disagree(grids.len(), solved)),
        _ => Ok(()),
    }
}

/// The first grid is shown, which need not be the one that the Rust finds first.
fn first_of_several(
    engine: &dyn Engine,
    accepted: &Accepted,
    by_rust: &[u8],
    left: &Left<u8>,
) -> Result<Right, String> {
    let right = if left.number != 102 || !is_grid(accepted, &left.entries) {
        Some(format!("102 with a grid, say {by_rust:x?}"))
    } else {
        grid_before(engine, accepted, &left.entries)
    };
    if let Some(right) = right {
        return Err(format!(
            "answers {} and leaves {:x?}; right is {right}",
            left.number, left.entries
        ));
    }
    let is_another = left.entries != by_rust;
    Ok(Right {
        label: "multiple",
        beside: is_another.then_some("another grid than the Rust's"),
    })
}

/// What has to be shown in the place of a grid that is not the first. Where the grids are
/// not listed, the engine is asked whether there is one before it.
fn grid_before(engine: &dyn Engine, accepted: &Accepted, cells: &[u8]) -> Option<String> {
    if let Some(grids) = accepted.grids() {
        return (grids[0] != cells).then(|| format!("102 with {:x?}", grids[0]));
    }
    let (size, rows, columns) = (accepted.size, accepted.rows, accepted.columns);
    let table = reference::candidates(size, rows, columns, &accepted.marks);
    let table = table.expect("the Rust has found grids");
    let mut lists = rules::marks_before(size, cells).into_iter();
    // What the Rust has struck is in no grid.
    let marks =
        lists.find(|marks| has_last(size, &table, marks) && counts_any(engine, accepted, marks))?;
    Some(format!(
        "102 with a grid that keeps the marks {marks:04x?} too"
    ))
}

/// Whether a table still has the value that the last of these marks takes.
fn has_last(size: usize, table: &[u16], marks: &[u16]) -> bool {
    let last = Mark::unpack(marks[marks.len() - 1]);
    let rejected = Mark::rejecting(last.row, last.column, last.value, 0);
    !rules::shows_mark(size, table, rejected)
}

/// Whether the engine counts a grid that keeps these marks as well. If it refuses, that
/// shows as one.
fn counts_any(engine: &dyn Engine, accepted: &Accepted, marks: &[u16]) -> bool {
    let marks = [&accepted.marks, marks].concat();
    let asked = Question {
        size: accepted.size,
        rows: accepted.rows,
        columns: accepted.columns,
        marks: &rules::word_bytes(&marks),
    };
    let mut count = 1;
    engine.count(Unit::HALL, asked, 1, &mut count);
    count > 0
}

fn is_grid(accepted: &Accepted, cells: &[u8]) -> bool {
    let (rows, columns) = (accepted.rows, accepted.columns);
    rules::satisfies(accepted.size, rows, columns, &accepted.marks, cells)
}
