//! Lines for the program `sheet`: puzzles that are soon solved, and lines with
//! every fault that its questions name.

use rand::{Rng, SeededRng};
use reference::Limit;
use rules::LinePuzzle;

use crate::puzzles::{puzzle_of, random_targets};
use crate::{Puzzle, any_size, grid};

/// A stream runs in a moment if no line of it takes long.
const SOON: Limit = Limit::Nodes(24);

/// Bytes that a careless reader may take for a digit, a space or an end.
const OTHER_BYTES: &[u8] = b"\0\x01\t\x0b\x0c\r\x1f!+,-./:;aO\x7f\x80\x85\xa0\xb2\xff";

/// The line of this puzzle, without its line end.
pub fn line_of(puzzle: &Puzzle) -> Vec<u8> {
    joined(&numbers_of(puzzle))
}

/// The lines of these puzzles, each with its line end.
pub fn lines_of(puzzles: &[Puzzle]) -> Vec<u8> {
    let line = |puzzle| [line_of(puzzle), vec![b'\n']].concat();
    puzzles.iter().flat_map(line).collect()
}

/// So many lines, drawn from this seed. The last one is a puzzle and lacks its
/// line end. Faults are put into puzzles of earlier lines: these are soon solved
/// even by a program that does not see the fault.
pub fn stream(seed: u64, count: usize) -> Vec<u8> {
    let mut rng = SeededRng::new(seed);
    let mut puzzles = Vec::new();
    let mut lines = Vec::new();
    for number in 1..=count {
        let is_good = puzzles.is_empty() || number == count || rng.below(16) < 6;
        if is_good {
            let puzzle = soon_solved(&mut rng);
            lines.push(line_of(&puzzle));
            puzzles.push(puzzle);
        } else {
            let puzzle = &puzzles[rng.below(puzzles.len())];
            lines.push(faulty_line(&mut rng, puzzle));
        }
    }
    lines.join(&b'\n')
}

/// The targets of a grid, or targets that mostly have none.
fn soon_solved(rng: &mut SeededRng) -> Puzzle {
    loop {
        let size = any_size(rng);
        let puzzle = match rng.below(2) {
            0 => random_targets(rng, size),
            _ => puzzle_of(size, &grid(rng, size)),
        };
        if is_soon_solved(size, &puzzle.rows, &puzzle.columns) {
            return puzzle;
        }
    }
}

fn is_soon_solved(size: usize, rows: &[u8], columns: &[u8]) -> bool {
    reference::solve_within(SOON, size, rows, columns, &[]).is_some()
}

/// This puzzle's line with faults. Where they make another puzzle of it, that one
/// has to be soon solved as well.
fn faulty_line(rng: &mut SeededRng, puzzle: &Puzzle) -> Vec<u8> {
    loop {
        let line = match rng.below(10) {
            0..4 => other_numbers(rng, puzzle),
            4..8 => other_bytes(rng, puzzle),
            8 => other_length(rng, puzzle),
            _ => random_bytes(rng),
        };
        let is_soon = |read: LinePuzzle| is_soon_solved(read.size, &read.rows, &read.columns);
        if rules::line_puzzle(&line).map_or(true, is_soon) {
            return line;
        }
    }
}

fn numbers_of(puzzle: &Puzzle) -> Vec<u128> {
    let targets = puzzle.rows.iter().chain(&puzzle.columns);
    let targets = targets.map(|&target| target.into());
    [puzzle.size as u128].into_iter().chain(targets).collect()
}

fn joined(numbers: &[u128]) -> Vec<u8> {
    let decimals: Vec<String> = numbers.iter().map(u128::to_string).collect();
    decimals.join(" ").into_bytes()
}

/// Decimals with single spaces, and one or two faults among the numbers.
fn other_numbers(rng: &mut SeededRng, puzzle: &Puzzle) -> Vec<u8> {
    let mut numbers = numbers_of(puzzle);
    for _ in 0..=rng.below(2) {
        damage_numbers(rng, puzzle.size, &mut numbers);
    }
    joined(&numbers)
}

/// Another size, a target too few or too many, or a number that is too large; some
/// of these are a good number again in their low bits.
fn damage_numbers(rng: &mut SeededRng, size: usize, numbers: &mut Vec<u128>) {
    let above = rules::greatest_target(size) as u128 + 1;
    let place = rng.below(numbers.len());
    match rng.below(9) {
        0 => numbers[0] = [0, 1, 10, 255][rng.below(4)],
        1 => numbers[0] = any_size(rng) as u128,
        2 if numbers.len() > 1 => drop(numbers.remove(place)),
        3 => numbers.truncate(place + 1),
        4 => numbers.insert(place, rng.below(size) as u128),
        5 | 6 => numbers[place] = above + [0, 0, 1, 10][rng.below(4)],
        7 => numbers[place] = [255, 256, 257, 999, 1000][rng.below(5)],
        _ => numbers[place] += 1 << [8, 16, 32, 64][rng.below(4)],
    }
}

/// A puzzle's line in which one to three bytes are wrong.
fn other_bytes(rng: &mut SeededRng, puzzle: &Puzzle) -> Vec<u8> {
    let mut line = line_of(puzzle);
    for _ in 0..=rng.below(3) {
        damage_bytes(rng, &mut line);
    }
    line
}

fn damage_bytes(rng: &mut SeededRng, line: &mut Vec<u8>) {
    let place = rng.below(line.len() + 1);
    match rng.below(12) {
        0 => line.insert(0, b' '),
        1 => line.push(b' '),
        2 => line.push(b'\r'),
        3 | 4 => put_before_a_number(rng, line, b' '),
        5 | 6 => put_before_a_number(rng, line, b'0'),
        7 => line.insert(place, other_byte(rng)),
        8 if place < line.len() => line[place] = other_byte(rng),
        9 if place < line.len() => drop(line.remove(place)),
        10 => line.truncate(place),
        _ => line.insert(place, b'0' + rng.below(10) as u8),
    }
}

fn other_byte(rng: &mut SeededRng) -> u8 {
    OTHER_BYTES[rng.below(OTHER_BYTES.len())]
}

/// A second space or a leading zero.
fn put_before_a_number(rng: &mut SeededRng, line: &mut Vec<u8>, byte: u8) {
    let behind_a_space = |&place: &usize| place == 0 || line[place - 1] == b' ';
    let places: Vec<usize> = (0..=line.len()).filter(behind_a_space).collect();
    line.insert(places[rng.below(places.len())], byte);
}

/// Lengths around the limit and around those that a counter of 8 or 16 bits could
/// take for a shorter one.
fn other_length(rng: &mut SeededRng, puzzle: &Puzzle) -> Vec<u8> {
    let line = line_of(puzzle);
    let length = match rng.below(64) {
        0 => 65_536 + rng.below(82),
        1..4 => 1000 + rng.below(4000),
        4..16 => 250 + rng.below(90),
        _ => 79 + rng.below(5),
    };
    let room = length - line.len();
    match rng.below(4) {
        0 => [line, vec![b' '; room]].concat(),
        1 => [vec![other_byte(rng); room], line].concat(),
        2 => [vec![b'0'; room], line].concat(),
        _ => [line, more_numbers(rng, room)].concat(),
    }
}

/// Further decimals, each behind a space, in exactly so many bytes, two or more.
fn more_numbers(rng: &mut SeededRng, length: usize) -> Vec<u8> {
    let mut bytes = Vec::new();
    while bytes.len() < length {
        let room = length - bytes.len() - 1;
        // One byte left over would have to be a space at the end.
        let fits = |digits: &usize| *digits == room || digits + 2 <= room;
        let widths: Vec<usize> = (1..=3).filter(fits).collect();
        let width = widths[rng.below(widths.len())];
        let (least, numbers) = [(0, 10), (10, 90), (100, 156)][width - 1];
        bytes.extend(format!(" {}", least + rng.below(numbers)).bytes());
    }
    bytes
}

/// Up to 90 bytes without a plan, or of a line's own signs.
fn random_bytes(rng: &mut SeededRng) -> Vec<u8> {
    let length = [0, 1, 2, 10, 90][rng.below(5)];
    let length = rng.below(length + 1);
    let is_plain = rng.below(2) == 0;
    let byte = |rng: &mut SeededRng| match is_plain {
        true => b"0123456789  "[rng.below(12)],
        false => rng.next_u64() as u8,
    };
    let bytes = (0..length).map(|_| byte(rng));
    bytes.filter(|&byte| byte != b'\n').collect()
}
