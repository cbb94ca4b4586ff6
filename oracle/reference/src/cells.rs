use rublock::grid::{Cell, Grid};
use rules::{BLACK, EMPTY};

/// The grid of these cell bytes.
pub fn grid_of<const N: usize>(cells: &[u8]) -> Grid<N> {
    assert_eq!(cells.len(), N * N, "one byte for each cell");
    let cell = |byte: u8| match byte {
        EMPTY => Cell::Empty,
        BLACK => Cell::Black,
        digit => Cell::Number(digit),
    };
    Grid {
        cells: std::array::from_fn(|r| std::array::from_fn(|c| cell(cells[r * N + c]))),
    }
}

/// The cell bytes of this grid, row by row.
pub fn bytes_of<const N: usize>(grid: &Grid<N>) -> Vec<u8> {
    let byte = |cell: &Cell| match *cell {
        Cell::Empty => EMPTY,
        Cell::Black => BLACK,
        Cell::Number(digit) => digit,
    };
    grid.cells.iter().flatten().map(byte).collect()
}
