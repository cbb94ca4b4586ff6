use rand::SeededRng;

use crate::cells::bytes_of;

/// The cell bytes of a grid drawn by the published generator.
pub fn random_grid(size: usize, rng: &mut SeededRng) -> Vec<u8> {
    with_size!(size, N => bytes_of(&rublock::grid::random_grid::<N>(rng)))
}
