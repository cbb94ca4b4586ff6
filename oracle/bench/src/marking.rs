//! Marking right sheets: every line has to be looked at.

use std::hint::black_box;

use doppelblock::Sheet;
use inputs::SeededRng;

use crate::measure::{Effort, Pair, measure};

const GRIDS: u64 = 1000;

pub fn run(rounds: usize) {
    let repeats = 200;
    for size in [6, 9] {
        let grids: Vec<Vec<u8>> = (0..GRIDS)
            .map(|number| inputs::grid(&mut SeededRng::new(number), size))
            .collect();
        let mut pairs: Vec<Pair> = grids.iter().map(|cells| pair(size, cells)).collect();
        let effort = Effort { rounds, repeats };
        measure(
            &format!("marking a right sheet, size {size}"),
            &mut pairs,
            effort,
        );
    }
}

/// The Rust has no call for it: it computes the sums of a ready-made grid and
/// compares them.
fn pair(size: usize, cells: &[u8]) -> Pair<'_> {
    let grid = reference::ready_grid(size, cells);
    let (rows, columns) = reference::target_sums(size, cells).expect("a grid has sums");
    let targets = (rows.clone(), columns.clone());
    let (mut rust_rows, mut rust_columns) = (vec![0; size], vec![0; size]);
    Pair {
        engine: Box::new(move || {
            let marked = doppelblock::mark_sheet(size, &rows, &columns, black_box(cells));
            u64::from(marked == Ok(Sheet::Right))
        }),
        rust: Box::new(move || {
            black_box(&grid).write_targets(&mut rust_rows, &mut rust_columns);
            u64::from(rust_rows == targets.0 && rust_columns == targets.1)
        }),
    }
}
