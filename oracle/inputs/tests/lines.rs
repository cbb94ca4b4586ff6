use std::collections::HashSet;

use inputs::{different_puzzles, line_of, lines_of, puzzle, stream};
use rules::line_puzzle;

fn lines(stream: &[u8]) -> Vec<&[u8]> {
    stream.split(|&byte| byte == b'\n').collect()
}

#[test]
fn a_puzzle_is_read_back_from_its_line() {
    for size in 2..=9 {
        let puzzle = puzzle(size, 7);
        let read = line_puzzle(&line_of(&puzzle)).expect("accepted");
        assert_eq!(
            (read.size, read.rows, read.columns),
            (puzzle.size, puzzle.rows, puzzle.columns)
        );
    }
}

#[test]
fn each_puzzle_has_a_line_with_its_end() {
    let lines = lines_of(&different_puzzles(6, 1000));
    assert_eq!(lines.last(), Some(&b'\n'));
    let sizes = lines.split_inclusive(|&byte| byte == b'\n').map(|line| {
        let read = line_puzzle(&line[..line.len() - 1]);
        read.map(|puzzle| puzzle.size)
    });
    assert_eq!(sizes.collect::<Vec<_>>(), vec![Ok(6); 1000]);
}

#[test]
fn a_seed_gives_its_stream_and_so_many_lines() {
    assert_eq!(stream(3, 50), stream(3, 50));
    assert_ne!(stream(3, 50), stream(4, 50));
    assert_eq!(stream(3, 0), b"");
    for count in 1..50 {
        let stream = stream(5, count);
        let lines = lines(&stream);
        assert_eq!(lines.len(), count);
        assert_eq!(line_puzzle(lines[count - 1]).err(), None);
    }
}

#[test]
fn every_size_and_every_refusal_is_there() {
    let stream = stream(1, 3000);
    let answers: HashSet<Result<usize, u8>> = lines(&stream)
        .into_iter()
        .map(|line| line_puzzle(line).map(|puzzle| puzzle.size))
        .collect();
    let accepted = (2..=9).map(Ok);
    let every = accepted.chain([1, 2, 3, 11].map(Err));
    assert_eq!(answers, every.collect());
}

/// Among the refused lines, so that the fault is not hidden behind another.
#[test]
fn lines_have_every_fault() {
    let stream = stream(1, 3000);
    let has = |number: u8, fault: &dyn Fn(&[u8]) -> bool| {
        let refused = |line: &&[u8]| line_puzzle(line).err() == Some(number);
        lines(&stream).into_iter().filter(refused).any(fault)
    };
    let within = |part: &'static [u8]| {
        move |line: &[u8]| line.len() <= 80 && line.windows(part.len()).any(|found| found == part)
    };
    for part in [
        &b"  "[..],
        b" 0",
        b"256",
        b"\t",
        b"\r",
        b"\0",
        b"\xff",
        b"+",
    ] {
        assert!(has(11, &within(part)), "{part:?}");
    }
    assert!(has(11, &|line| line.is_empty()));
    assert!(has(11, &|line| line.first() == Some(&b' ')));
    assert!(has(11, &|line| line.last() == Some(&b' ')));
    assert!(has(11, &|line| line.last() == Some(&b'\r')));
    for length in 79..=83 {
        let number = if length <= 80 { 2 } else { 11 };
        assert!(has(number, &|line| line.len() == length), "{length}");
    }
    assert!(has(11, &|line| (1000..9000).contains(&line.len())));
    for size in ["0", "1", "10", "255"] {
        let begins = |line: &[u8]| line.split(|&byte| byte == b' ').next() == Some(size.as_bytes());
        assert!(has(1, &begins), "size {size}");
    }
}
