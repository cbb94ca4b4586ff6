//! Counting to cap 2, and the candidates of a puzzle without marks.

use std::hint::black_box;

use doppelblock::Candidates;
use inputs::Puzzle;

use crate::measure::{Call, Effort, Pair, measure};
use crate::puzzles::{CAP, timed};

/// Some passes over these puzzles take half a minute, so each table has its own
/// number of rounds.
pub fn run(rounds: usize) {
    for size in 2..6 {
        table("count to cap 2", size, rounds, 20, count);
    }
    for (size, most, repeats) in [(6, 9, 3), (7, 9, 1), (8, 3, 1), (9, 3, 1)] {
        table("count to cap 2", size, rounds.min(most), repeats, count);
    }
    for size in [6, 8] {
        table("candidates", size, rounds, 5, candidates);
    }
}

fn table(call: &str, size: usize, rounds: usize, repeats: u32, pair: fn(&Puzzle) -> Pair) {
    let puzzles = timed(size);
    let mut pairs: Vec<Pair> = puzzles.iter().map(pair).collect();
    let effort = Effort { rounds, repeats };
    measure(&format!("{call}, size {size}"), &mut pairs, effort);
}

/// Both sides build their state from the targets first.
pub fn count(puzzle: &Puzzle) -> Pair<'_> {
    let Puzzle {
        size,
        rows,
        columns,
    } = puzzle;
    Pair {
        engine: engine_count(puzzle),
        rust: Box::new(|| reference::count(*size, black_box(rows), columns, &[], CAP) as u64),
    }
}

pub fn engine_count(puzzle: &Puzzle) -> Call<'_> {
    let Puzzle {
        size,
        rows,
        columns,
    } = puzzle;
    Box::new(|| {
        let counted = doppelblock::count(*size, black_box(rows), columns, &[], CAP as u64);
        counted.expect("nothing is refused")
    })
}

/// Opening and propagation. The Rust has then done; the engine writes its table.
fn candidates(puzzle: &Puzzle) -> Pair<'_> {
    let Puzzle {
        size,
        rows,
        columns,
    } = puzzle;
    let mut table = vec![0; 2 * size * size];
    Pair {
        engine: Box::new(move || {
            let left = doppelblock::candidates(*size, black_box(rows), columns, &[], &mut table);
            black_box(&table);
            u64::from(left == Ok(Candidates::Written))
        }),
        rust: Box::new(|| u64::from(reference::opens(*size, black_box(rows), columns))),
    }
}
