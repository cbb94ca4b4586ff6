//! Counting to cap 2 on the puzzles by which the order of the search is judged. At size 9
//! the Rust takes minutes for many of them and runs on the others only.

use inputs::Puzzle;

use crate::measure::{Call, Effort, Pair, measure, measure_alone};
use crate::puzzles::{SOON, drawn_of_size_9, ends_soon, even_of_size_9, timed};
use crate::searching::{count, engine_count};

pub fn run() {
    let drawn = timed(8);
    let mut pairs: Vec<Pair> = drawn.iter().map(count).collect();
    measure("count to cap 2, drawn, size 8", &mut pairs, rounds(1));
    of_size_9("drawn", drawn_of_size_9());
    of_size_9(
        "one target in all rows and one in all columns",
        even_of_size_9(),
    );
}

/// All of them on the engine; both sides on those that the Rust ends soon.
fn of_size_9(what: &str, mut puzzles: Vec<Puzzle>) {
    let title = format!("count to cap 2, {what}, size 9");
    let mut calls: Vec<Call> = puzzles.iter().map(engine_count).collect();
    let longest = measure_alone(&title, &mut calls, rounds(3));
    drop(calls);
    let Puzzle { rows, columns, .. } = &puzzles[longest];
    println!("  largest: rows {rows:?}, columns {columns:?}\n");

    puzzles.retain(ends_soon);
    let mut pairs: Vec<Pair> = puzzles.iter().map(count).collect();
    let title = format!("{title}, those that the Rust counts in {SOON} nodes");
    measure(&title, &mut pairs, rounds(3));
}

fn rounds(rounds: usize) -> Effort {
    let repeats = 1;
    Effort { rounds, repeats }
}
