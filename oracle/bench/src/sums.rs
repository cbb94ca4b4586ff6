//! Target sums of grids that satisfy the rules.

use std::hint::black_box;

use inputs::SeededRng;

use crate::measure::{Effort, Pair, measure};

const GRIDS: u64 = 1000;

pub fn run(rounds: usize) {
    let repeats = 200;
    for size in [3, 6, 8, 9] {
        let grids: Vec<Vec<u8>> = (0..GRIDS)
            .map(|number| inputs::grid(&mut SeededRng::new(number), size))
            .collect();
        let mut pairs: Vec<Pair> = grids.iter().map(|cells| pair(size, cells)).collect();
        let effort = Effort { rounds, repeats };
        measure(&format!("target sums, size {size}"), &mut pairs, effort);
    }
}

/// The Rust gets its grid ready-made; the engine reads the cell bytes.
fn pair(size: usize, cells: &[u8]) -> Pair<'_> {
    let grid = reference::ready_grid(size, cells);
    assert_eq!(
        by_engine(size, cells),
        reference::target_sums(size, cells).ok()
    );
    let (mut rows, mut columns) = (vec![0; size], vec![0; size]);
    let (mut rust_rows, mut rust_columns) = (vec![0; size], vec![0; size]);
    Pair {
        engine: Box::new(move || {
            let answer = doppelblock::target_sums(size, black_box(cells), &mut rows, &mut columns);
            black_box((&rows, &columns));
            u64::from(answer.is_ok())
        }),
        rust: Box::new(move || {
            black_box(&grid).write_targets(&mut rust_rows, &mut rust_columns);
            black_box((&rust_rows, &rust_columns));
            1
        }),
    }
}

fn by_engine(size: usize, cells: &[u8]) -> Option<(Vec<u8>, Vec<u8>)> {
    let (mut rows, mut columns) = (vec![0; size], vec![0; size]);
    doppelblock::target_sums(size, cells, &mut rows, &mut columns).ok()?;
    Some((rows, columns))
}
