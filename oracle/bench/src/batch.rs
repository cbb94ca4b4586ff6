//! Counting the kept puzzles of size 8 to cap 2: whether four times the time of the Rust's
//! `count_solutions` is enough for the engine.

use std::hint::black_box;

use inputs::Puzzle;

use crate::measure::{Effort, Times, both, clocked, in_rounds, print_pairs, print_title};
use crate::puzzles::CAP;
use crate::searching::engine_count;

/// The engine may take so many times as long as the Rust.
const MOST: f64 = 4.0;

/// One puzzle in one round, in nanoseconds. The engine opens the puzzle in its call; the
/// Rust's constructor has a clock of its own.
struct Clocks {
    engine: f64,
    constructor: f64,
    count: f64,
}

/// Prints a table for each reading of the Rust's clocks. Whether the engine is fast enough
/// by the first.
pub fn run(rounds: usize) -> bool {
    let mut puzzles = batch::puzzles();
    let rounds = in_rounds(rounds, &mut puzzles, |puzzle, engine_first| {
        timed(puzzle, engine_first)
    });
    let ratio = print("count_solutions alone", &rounds, |clocks| clocks.count);
    print("with its constructor", &rounds, |clocks| {
        clocks.constructor + clocks.count
    });
    let passes = passes(ratio);
    let verdict = if passes { "passed" } else { "FAILED" };
    println!("{verdict}: {ratio:.4} times as long as count_solutions, at most {MOST} allowed");
    passes
}

fn passes(ratio: f64) -> bool {
    ratio <= MOST
}

/// Both sides have to count the same.
fn timed(puzzle: &Puzzle, engine_first: bool) -> Clocks {
    let ((engine, by_engine), (constructor, (count, by_rust))) = both(
        engine_first,
        || clocked(engine_count(puzzle)),
        || rust_count(puzzle),
    );
    assert_eq!(by_engine, by_rust, "{puzzle:?}: run compare");
    Clocks {
        engine,
        constructor,
        count,
    }
}

/// The time of the constructor, then that of the count and what it gave.
fn rust_count(puzzle: &Puzzle) -> (f64, (f64, u64)) {
    let Puzzle {
        size,
        rows,
        columns,
    } = puzzle;
    let (constructor, solver) =
        clocked(|| reference::ready_solver(*size, black_box(rows), columns));
    let counted = clocked(|| black_box(&solver).count(CAP) as u64);
    (constructor, counted)
}

/// Prints the table with this time of the Rust. Gives the ratio of the totals.
fn print(what: &str, rounds: &[Vec<Clocks>], rust: fn(&Clocks) -> f64) -> f64 {
    let times = |clocks: &Clocks| Times {
        engine: clocks.engine,
        rust: rust(clocks),
    };
    let rounds: Vec<Vec<Times>> = rounds
        .iter()
        .map(|round| round.iter().map(times).collect())
        .collect();
    let effort = Effort {
        rounds: rounds.len(),
        repeats: 1,
    };
    let title = format!("count to cap 2, the kept puzzles of size 8, {what}");
    print_title(&title, rounds[0].len(), effort);
    print_pairs(&rounds)
}

#[cfg(test)]
mod tests {
    use super::passes;

    #[test]
    fn four_times_as_long_passes_and_more_fails() {
        assert!(passes(0.01) && passes(4.0));
        assert!(!passes(4.001) && !passes(f64::NAN));
    }
}
