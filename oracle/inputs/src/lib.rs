//! Cells, lengths, puzzles, marks and lines that the programs of the oracle draw. The
//! same generator state gives the same input on every machine.

mod asked;
mod cells;
mod lines;
mod puzzles;

pub use asked::{
    Asked, any_mark, any_marks, damage_asked, of_a_grid, of_a_pinned_grid, of_random_targets,
};
pub use cells::{
    any_byte, blacks_of_a_grid, damage, grid, random_cells, sums_near_255, transposed,
};
pub use lines::{line_of, lines_of, stream};
pub use puzzles::{Puzzle, different_puzzles, puzzle, puzzle_of, short_puzzle};
pub use rand::{Rng, SeededRng};

/// Sizes that are refused. Some have an accepted size in their low bits, one
/// has a square of 0 in 64 bits.
pub const OTHER_SIZES: [usize; 10] = [
    0,
    1,
    10,
    11,
    255,
    256 + 3,
    65_536 + 4,
    (1 << 32) + 5,
    1 << 32,
    usize::MAX,
];

/// A size from 2 to 9.
pub fn any_size(rng: &mut SeededRng) -> usize {
    2 + rng.below(8)
}

/// The lengths around 0, the size and its square: what a slice may be long by
/// right or by mistake.
pub fn lengths_around(size: usize) -> Vec<usize> {
    let around = |length: usize| [length.saturating_sub(1), length, length + 1];
    let mut lengths: Vec<usize> = [0, size, size * size]
        .into_iter()
        .flat_map(around)
        .collect();
    lengths.sort_unstable();
    lengths.dedup();
    lengths
}

/// Every choice of two such lengths.
pub fn two_lengths_around(size: usize) -> impl Iterator<Item = [usize; 2]> {
    choices(lengths_around(size))
}

/// Every choice of three such lengths.
pub fn three_lengths_around(size: usize) -> impl Iterator<Item = [usize; 3]> {
    choices(lengths_around(size))
}

/// Every way to choose so many of these, in order and with repeats.
pub fn choices<T: Copy, const COUNT: usize>(from: Vec<T>) -> impl Iterator<Item = [T; COUNT]> {
    let total = from.len().pow(COUNT as u32);
    (0..total).map(move |index| {
        std::array::from_fn(|place| from[index / from.len().pow(place as u32) % from.len()])
    })
}

/// Every list of `length` bytes from `alphabet`.
pub fn all_lists(length: usize, alphabet: &'static [u8]) -> impl Iterator<Item = Vec<u8>> {
    let total = alphabet.len().pow(length as u32);
    (0..total).map(move |mut index| {
        let mut list = vec![0; length];
        for byte in &mut list {
            *byte = alphabet[index % alphabet.len()];
            index /= alphabet.len();
        }
        list
    })
}
