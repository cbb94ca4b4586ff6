use std::panic;

use rublock::grid::Grid;
use rules::Sums;

use crate::caught::{caught, message};
use crate::cells::grid_of;

/// The sums by `compute_targets`, or the number that stands for its panic.
pub fn target_sums(size: usize, cells: &[u8]) -> Result<Sums, u8> {
    with_size!(size, N => {
        let grid = grid_of::<N>(cells);
        caught(|| grid.compute_targets())
            .map(|(rows, columns)| (rows.to_vec(), columns.to_vec()))
            .map_err(|payload| match message(&*payload).and_then(number_of) {
                Some(number) => number,
                None => panic::resume_unwind(payload),
            })
    })
}

/// Which of its panics this message belongs to.
fn number_of(message: &str) -> Option<u8> {
    if message.contains("black square") {
        Some(8)
    } else if message.contains("between blacks") {
        Some(9)
    } else if message.contains("add with overflow") {
        Some(10)
    } else {
        None
    }
}

/// Whether this build panics where a sum leaves 255 behind.
pub fn overflow_is_checked() -> bool {
    let cells = [
        255, 200, 100, 255, 255, 1, 1, 255, 1, 255, 255, 1, 1, 255, 255, 1,
    ];
    target_sums(4, &cells) == Err(10)
}

/// A grid in the form that the Rust reads, to time `compute_targets` alone.
pub trait ReadyGrid {
    /// Writes the sums; panics where the grid has none.
    fn write_targets(&self, rows: &mut [u8], columns: &mut [u8]);
}

impl<const N: usize> ReadyGrid for Grid<N> {
    fn write_targets(&self, rows: &mut [u8], columns: &mut [u8]) {
        let (row_targets, column_targets) = self.compute_targets();
        rows.copy_from_slice(&row_targets);
        columns.copy_from_slice(&column_targets);
    }
}

pub fn ready_grid(size: usize, cells: &[u8]) -> Box<dyn ReadyGrid> {
    with_size!(size, N => Box::new(grid_of::<N>(cells)))
}
