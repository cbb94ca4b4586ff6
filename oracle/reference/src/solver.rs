use rublock::queue_solver::QueueSolverState;
use rublock::recorder::{Recorder, SearchNodes};
use rublock::solver::{CellDomain, Puzzle, SolveOutcome, Solver};
use rules::Mark;

use crate::cells::bytes_of;
use crate::limit::{Limit, Limited, within};

/// What `solve` found, with the cell bytes of its first grid.
#[derive(Clone, Debug, PartialEq, Eq)]
pub enum Solved {
    Unsolvable,
    Unique(Vec<u8>),
    Multiple(Vec<u8>),
}

/// Whether `try_new` takes these targets.
pub fn accepts(size: usize, rows: &[u8], columns: &[u8]) -> bool {
    with_size!(size, N => {
        Puzzle::<N>::try_new(targets(rows), targets(columns)).is_ok()
    })
}

/// The candidate table after the marks and one more propagation, row by row, or
/// `None` if a cell is empty.
pub fn candidates(size: usize, rows: &[u8], columns: &[u8], marks: &[u16]) -> Option<Vec<u16>> {
    with_size!(size, N => {
        let mut state = marked::<N, SearchNodes>(rows, columns, marks);
        state.propagate();
        (!state.is_contradiction()).then(|| table_of(&state))
    })
}

/// Builds the solver, which opens and propagates once; whether every cell has a
/// candidate left. To time the constructor alone.
pub fn opens(size: usize, rows: &[u8], columns: &[u8]) -> bool {
    with_size!(size, N => !marked::<N, SearchNodes>(rows, columns, &[]).is_contradiction())
}

/// The number of grids, at most `cap`.
pub fn count(size: usize, rows: &[u8], columns: &[u8], marks: &[u16], cap: usize) -> usize {
    with_size!(size, N => {
        marked::<N, SearchNodes>(rows, columns, marks).count_solutions(cap)
    })
}

/// A solver that is built, to time `count_solutions` alone.
pub trait ReadySolver {
    fn count(&self, cap: usize) -> usize;
}

impl<const N: usize> ReadySolver for QueueSolverState<N, SearchNodes> {
    fn count(&self, cap: usize) -> usize {
        self.count_solutions(cap)
    }
}

pub fn ready_solver(size: usize, rows: &[u8], columns: &[u8]) -> Box<dyn ReadySolver> {
    with_size!(size, N => Box::new(marked::<N, SearchNodes>(rows, columns, &[])))
}

/// The verdict and the first grid.
pub fn solve(size: usize, rows: &[u8], columns: &[u8], marks: &[u16]) -> Solved {
    with_size!(size, N => outcome(marked::<N, SearchNodes>(rows, columns, marks).solve()))
}

/// As [`count`], but `None` if the search passes the limit.
pub fn count_within(
    limit: Limit,
    size: usize,
    rows: &[u8],
    columns: &[u8],
    marks: &[u16],
    cap: usize,
) -> Option<usize> {
    within(
        limit,
        || with_size!(size, N => marked::<N, Limited>(rows, columns, marks).count_solutions(cap)),
    )
}

/// As [`solve`], but `None` if the search passes the limit.
pub fn solve_within(
    limit: Limit,
    size: usize,
    rows: &[u8],
    columns: &[u8],
    marks: &[u16],
) -> Option<Solved> {
    within(
        limit,
        || with_size!(size, N => outcome(marked::<N, Limited>(rows, columns, marks).solve())),
    )
}

/// A fresh solver with the marks applied in order. The constructor propagates;
/// nothing propagates between the marks.
fn marked<const N: usize, R: Recorder>(
    rows: &[u8],
    columns: &[u8],
    marks: &[u16],
) -> QueueSolverState<N, R> {
    let puzzle = Puzzle::try_new(targets(rows), targets(columns)).expect("targets in range");
    let mut state = QueueSolverState::with_recorder(puzzle);
    for &word in marks {
        let mark = Mark::unpack(word);
        let bit = bit_of::<N>(mark.value);
        if mark.rejected {
            state.reject_branch(mark.row, mark.column, bit);
        } else {
            state.take_branch(mark.row, mark.column, bit);
        }
    }
    state
}

fn targets<const N: usize>(targets: &[u8]) -> [u8; N] {
    targets.try_into().expect("one target for each line")
}

/// Digits keep their number; the blacks 8 to 11 are the bits N - 1 to N + 2.
fn bit_of<const N: usize>(value: u8) -> CellDomain {
    let value = usize::from(value);
    if (8..=11).contains(&value) {
        1 << (N - 1 + value - 8)
    } else {
        assert!((1..=N - 2).contains(&value), "a value of this size");
        1 << value
    }
}

fn table_of<const N: usize, R: Recorder>(state: &QueueSolverState<N, R>) -> Vec<u16> {
    let entry = |&domain: &CellDomain| u16::try_from(domain).expect("N + 3 bits at most");
    state.domains().iter().flatten().map(entry).collect()
}

fn outcome<const N: usize, R: Recorder>(outcome: SolveOutcome<QueueSolverState<N, R>>) -> Solved {
    let grid = |state: QueueSolverState<N, R>| {
        bytes_of(&state.solved_cells().expect("a solution is solved"))
    };
    match outcome {
        SolveOutcome::Unsolvable => Solved::Unsolvable,
        SolveOutcome::Unique(state) => Solved::Unique(grid(state)),
        SolveOutcome::Multiple(state) => Solved::Multiple(grid(state)),
    }
}
