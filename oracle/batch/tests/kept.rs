use std::collections::HashSet;

use batch::{FILE, drawn, puzzles};

#[test]
fn the_program_writes_the_kept_file() {
    assert!(inputs::lines_of(&drawn()) == FILE.as_bytes());
}

#[test]
fn the_kept_file_has_1000_different_lines() {
    let lines: HashSet<&str> = FILE.lines().collect();
    assert_eq!((FILE.lines().count(), lines.len()), (1000, 1000));
}

#[test]
fn the_lines_are_read_as_they_were_drawn() {
    assert_eq!(puzzles(), drawn());
}

/// A blank would be byte 255, which is above the greatest target.
#[test]
fn each_puzzle_is_of_size_8_without_blanks() {
    for puzzle in puzzles() {
        let lengths = [puzzle.rows.len(), puzzle.columns.len()];
        assert_eq!((puzzle.size, lengths), (8, [8, 8]));
        let mut targets = puzzle.rows.iter().chain(&puzzle.columns);
        assert!(targets.all(|&target| usize::from(target) <= rules::greatest_target(8)));
    }
}
