use rand::{Rng, SeededRng};
use rules::{BLACK, Mark};

use crate::puzzles::{puzzle_of, random_targets};
use crate::{Puzzle, any_byte, any_size, grid};

/// What a searching call is asked: a puzzle and the bytes of its marks.
#[derive(Clone, Debug, PartialEq, Eq, Hash)]
pub struct Asked {
    pub size: usize,
    pub rows: Vec<u8>,
    pub columns: Vec<u8>,
    pub marks: Vec<u8>,
}

impl Asked {
    pub fn of(puzzle: Puzzle, marks: &[u16]) -> Self {
        let marks = rules::word_bytes(marks);
        Self {
            size: puzzle.size,
            rows: puzzle.rows,
            columns: puzzle.columns,
            marks,
        }
    }
}

/// The targets of a drawn grid, with marks that it mostly keeps.
pub fn of_a_grid(rng: &mut SeededRng, size: usize) -> Asked {
    let cells = grid(rng, size);
    let marks = any_marks(rng, size, &cells);
    Asked::of(puzzle_of(size, &cells), &marks)
}

/// The targets of a drawn grid, with so many of its values taken that there is
/// often no other, and that the search is short.
pub fn of_a_pinned_grid(rng: &mut SeededRng, size: usize) -> Asked {
    let cells = grid(rng, size);
    let taken = |rng: &mut SeededRng| taken_mark(rng, size, &cells);
    let marks: Vec<u16> = (0..size * size / 2).map(|_| taken(rng)).collect();
    Asked::of(puzzle_of(size, &cells), &marks)
}

/// Targets without a plan, with marks that some grid of this size mostly keeps.
pub fn of_random_targets(rng: &mut SeededRng, size: usize) -> Asked {
    let cells = grid(rng, size);
    let puzzle = random_targets(rng, size);
    let marks = any_marks(rng, size, &cells);
    Asked::of(puzzle, &marks)
}

/// Up to twelve marks. In half of the lists this grid keeps each of them; in the
/// others some may contradict it and each other. Repeats come in both.
pub fn any_marks(rng: &mut SeededRng, size: usize, cells: &[u8]) -> Vec<u16> {
    let free_in = [usize::MAX, usize::MAX, 6, 2][rng.below(4)];
    let mut marks = Vec::new();
    for _ in 0..rng.below(13) {
        let earlier = marks.get(rng.below(marks.len() + 1)).copied();
        let mark = match (rng.below(8), earlier) {
            (0, Some(mark)) => mark,
            (1, Some(mark)) if rng.below(free_in) == 0 => opposite(mark),
            _ if rng.below(free_in) == 0 => any_mark(rng, size),
            _ => kept_mark(rng, size, cells),
        };
        marks.push(mark);
    }
    marks
}

/// A mark that this size has.
pub fn any_mark(rng: &mut SeededRng, size: usize) -> u16 {
    let digits = size - 2;
    let value = match rng.below(digits + 4) {
        black if black < 4 => 8 + black,
        digit => digit - 3,
    };
    let mark = Mark {
        rejected: rng.below(2) == 0,
        row: rng.below(size),
        column: rng.below(size),
        value: value as u8,
        spare: 0,
    };
    mark.pack()
}

/// Takes what the other rejects.
fn opposite(mark: u16) -> u16 {
    mark ^ 0x8000
}

/// A mark that this grid keeps. Most draws would reject, so half of them take.
fn kept_mark(rng: &mut SeededRng, size: usize, cells: &[u8]) -> u16 {
    if rng.below(2) == 0 {
        return taken_mark(rng, size, cells);
    }
    let mark = any_mark(rng, size);
    if rules::keeps_mark(size, cells, mark) {
        mark
    } else {
        opposite(mark)
    }
}

/// A value that this grid has.
fn taken_mark(rng: &mut SeededRng, size: usize, cells: &[u8]) -> u16 {
    loop {
        let mark = any_mark(rng, size);
        if !Mark::unpack(mark).rejected && rules::keeps_mark(size, cells, mark) {
            return mark;
        }
    }
}

/// Damages the size, one of the lengths, a target or a mark.
pub fn damage_asked(rng: &mut SeededRng, asked: &mut Asked) {
    match rng.below(8) {
        0 => asked.size = rng.below(12),
        1 => asked.rows.resize(rng.below(12), 0),
        2 => asked.columns.resize(rng.below(12), 0),
        3 => change_one(rng, &mut asked.rows),
        4 => change_one(rng, &mut asked.columns),
        5 => asked.marks.resize(rng.below(asked.marks.len() + 4), BLACK),
        _ => damage_marks(rng, asked),
    }
}

fn change_one(rng: &mut SeededRng, bytes: &mut [u8]) {
    if !bytes.is_empty() {
        let place = rng.below(bytes.len());
        bytes[place] = any_byte(rng);
    }
}

/// Flips a bit of a mark, or adds a mark of another size.
fn damage_marks(rng: &mut SeededRng, asked: &mut Asked) {
    if asked.marks.is_empty() || rng.below(2) == 0 {
        let size = any_size(rng);
        let mark = any_mark(rng, size);
        asked.marks.extend(mark.to_be_bytes());
    } else {
        let place = rng.below(asked.marks.len());
        asked.marks[place] ^= 1 << rng.below(8);
    }
}
