//! The puzzles that the searching calls are timed on. They are the same in
//! every run: each is drawn from its number.

use std::time::{Duration, Instant};

use inputs::{Puzzle, Rng, SeededRng, different_puzzles, puzzle};
use reference::Limit;

/// Numbers of the size 9 puzzles that the Rust counts to cap 2 within a second,
/// out of the first 200. Made by `bench choose`.
const SIZE_9: &str = include_str!("../size-9-puzzles.txt");

const CHOSEN_FROM: u64 = 200;

/// The searching calls count up to two grids.
pub const CAP: usize = 2;

/// 1,000 puzzles of a size up to 8, and the chosen ones of size 9.
pub fn timed(size: usize) -> Vec<Puzzle> {
    // The small sizes have too few puzzles for 1,000 different ones.
    if size < 6 {
        return (0..1000).map(|number| puzzle(size, number)).collect();
    }
    if size < 9 {
        return different_puzzles(size, 1000);
    }
    let numbers = SIZE_9.lines().map(|line| line.parse().expect("a number"));
    numbers.map(|number| puzzle(size, number)).collect()
}

/// The puzzles of size 9 that the list above was chosen from.
pub fn drawn_of_size_9() -> Vec<Puzzle> {
    (0..CHOSEN_FROM).map(|number| puzzle(9, number)).collect()
}

/// Every puzzle of size 9 with one target in all rows and one in all columns.
pub fn even_of_size_9() -> Vec<Puzzle> {
    let targets = 0..=rules::greatest_target(9) as u8;
    let rows = targets.clone();
    rows.flat_map(|rows| targets.clone().map(move |columns| even(9, rows, columns)))
        .collect()
}

/// Puzzles of sizes 8 and 9 with deep searches: drawn ones, low targets, which leave many
/// choices, and the same target in each line.
pub fn deep() -> Vec<Puzzle> {
    let mut rng = SeededRng::new(9);
    let mut puzzles = drawn_of_size_9();
    for size in [8, 9] {
        puzzles.extend((0..200).map(|_| low(&mut rng, size)));
        let targets = 0..=rules::greatest_target(size) as u8;
        puzzles.extend(targets.map(|target| even(size, target, target)));
    }
    puzzles
}

/// Most targets 0, a few up to the greatest.
fn low(rng: &mut SeededRng, size: usize) -> Puzzle {
    let above = [1, 1, 1, 3, rules::greatest_target(size) + 1];
    let target = |rng: &mut SeededRng| {
        let above = above[rng.below(above.len())];
        rng.below(above) as u8
    };
    let mut targets = || (0..size).map(|_| target(rng)).collect();
    Puzzle {
        size,
        rows: targets(),
        columns: targets(),
    }
}

/// One target in all rows and one in all columns.
fn even(size: usize, rows: u8, columns: u8) -> Puzzle {
    Puzzle {
        size,
        rows: vec![rows; size],
        columns: vec![columns; size],
    }
}

/// The nodes in which the Rust ends soon.
pub const SOON: u64 = 1000;

/// Whether the Rust counts it to cap 2 in so many nodes, which are the same on every
/// machine.
pub fn ends_soon(puzzle: &Puzzle) -> bool {
    let Puzzle {
        size,
        rows,
        columns,
    } = puzzle;
    let soon = Limit::Nodes(SOON);
    reference::count_within(soon, *size, rows, columns, &[], CAP).is_some()
}

/// Prints the numbers for the list above.
pub fn choose() {
    for number in 0..CHOSEN_FROM {
        let puzzle = puzzle(9, number);
        let end = Limit::Deadline(Instant::now() + Duration::from_secs(1));
        if reference::count_within(end, 9, &puzzle.rows, &puzzle.columns, &[], CAP).is_some() {
            println!("{number}");
        }
    }
}

#[cfg(test)]
mod tests {
    use super::{even_of_size_9, timed};

    #[test]
    fn the_lists_are_there() {
        assert_eq!(timed(6).len(), 1000);
        assert_eq!(timed(8).len(), 1000);
        assert_eq!(timed(9).len(), 156);
        assert_eq!(even_of_size_9().len(), 841);
    }
}
