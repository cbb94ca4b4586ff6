use std::collections::HashSet;

use rand::{Rng, SeededRng};
use reference::{Limit, count_within, random_grid};

/// The targets of one puzzle.
#[derive(Clone, Debug, PartialEq, Eq, Hash)]
pub struct Puzzle {
    pub size: usize,
    pub rows: Vec<u8>,
    pub columns: Vec<u8>,
}

/// The puzzle of this number: the targets of the grid drawn from it.
pub fn puzzle(size: usize, number: u64) -> Puzzle {
    puzzle_of(size, &random_grid(size, &mut SeededRng::new(number)))
}

/// The targets of this grid.
pub fn puzzle_of(size: usize, cells: &[u8]) -> Puzzle {
    let (rows, columns) = reference::target_sums(size, cells).expect("a grid has sums");
    Puzzle {
        size,
        rows,
        columns,
    }
}

/// Targets without a plan, low ones more often.
pub fn random_targets(rng: &mut SeededRng, size: usize) -> Puzzle {
    let above = 1 + rng.below(rules::greatest_target(size) + 1);
    let mut targets = || (0..size).map(|_| rng.below(above) as u8).collect();
    Puzzle {
        size,
        rows: targets(),
        columns: targets(),
    }
}

/// The first puzzles, without those that came before under a smaller number.
pub fn different_puzzles(size: usize, count: usize) -> Vec<Puzzle> {
    let mut seen = HashSet::new();
    (0..)
        .map(|number| puzzle(size, number))
        .filter(|puzzle| seen.insert(puzzle.clone()))
        .take(count)
        .collect()
}

/// The first puzzle with more than one grid, or at size 2 with its only one, that
/// the Rust counts to cap 2 in few nodes.
pub fn short_puzzle(size: usize) -> Puzzle {
    let grids = if size == 2 { 1 } else { 2 };
    let counted = |puzzle: &Puzzle| {
        let few = Limit::Nodes(20);
        count_within(few, size, &puzzle.rows, &puzzle.columns, &[], 2)
    };
    (0..)
        .map(|number| puzzle(size, number))
        .find(|puzzle| counted(puzzle) == Some(grids))
        .expect("the numbers do not end")
}
