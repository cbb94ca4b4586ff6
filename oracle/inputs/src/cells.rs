use rand::{Rng, SeededRng};
use reference::random_grid;
use rules::{BLACK, EMPTY};

/// A grid that satisfies the rules.
pub fn grid(rng: &mut SeededRng, size: usize) -> Vec<u8> {
    random_grid(size, rng)
}

/// Bytes around which an answer changes come often.
pub fn any_byte(rng: &mut SeededRng) -> u8 {
    match rng.below(8) {
        0 => EMPTY,
        1 | 2 => BLACK,
        3 => 254,
        4 => rng.below(10) as u8,
        5 => 120 + rng.below(20) as u8,
        _ => rng.next_u64() as u8,
    }
}

/// Changes one to four cells.
pub fn damage(rng: &mut SeededRng, cells: &mut [u8]) {
    for _ in 0..=rng.below(4) {
        let place = rng.below(cells.len());
        cells[place] = any_byte(rng);
    }
}

/// Cells without a plan; about two in each line are black.
pub fn random_cells(rng: &mut SeededRng, size: usize) -> Vec<u8> {
    let cell = |rng: &mut SeededRng| {
        if rng.below(size + 1) < 2 {
            BLACK
        } else {
            any_byte(rng)
        }
    };
    (0..size * size).map(|_| cell(rng)).collect()
}

/// The blacks of a grid, and any other bytes around them: every line has two
/// blacks, so that the cells between them decide.
pub fn blacks_of_a_grid(rng: &mut SeededRng, size: usize) -> Vec<u8> {
    let mut cells = grid(rng, size);
    let greatest = [3, 40, 130, 254][rng.below(4)];
    let empty_in = [size, 4 * size * size, usize::MAX][rng.below(3)];
    for cell in cells.iter_mut().filter(|cell| **cell != BLACK) {
        *cell = if rng.below(empty_in) == 0 {
            EMPTY
        } else {
            1 + rng.below(greatest) as u8
        };
    }
    cells
}

/// The blacks of a grid, with the sums of all rows or of all columns at 253 to
/// 257 where there is room.
pub fn sums_near_255(rng: &mut SeededRng, size: usize) -> Vec<u8> {
    let mut cells = grid(rng, size);
    let is_black = |cell: &u8| *cell == BLACK;
    for row in cells.chunks_exact_mut(size) {
        let first = row.iter().position(is_black).expect("a black");
        let second = row.iter().rposition(is_black).expect("a black");
        share_out(rng, &mut row[first + 1..second]);
    }
    if rng.below(2) == 0 {
        cells = transposed(size, &cells);
    }
    cells
}

/// Fills the cells with numbers that add up to 253 to 257 if they can.
fn share_out(rng: &mut SeededRng, cells: &mut [u8]) {
    let mut left = 253 + rng.below(5);
    for place in 0..cells.len() {
        let others = cells.len() - 1 - place;
        let share = if others == 0 {
            left.min(254)
        } else {
            1 + rng.below((left - others).min(254))
        };
        cells[place] = share as u8;
        left -= share;
    }
}

/// Rows become columns.
pub fn transposed(size: usize, cells: &[u8]) -> Vec<u8> {
    (0..size * size)
        .map(|i| cells[i % size * size + i / size])
        .collect()
}
