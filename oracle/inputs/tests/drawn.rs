use std::collections::HashSet;

use inputs::{Asked, Puzzle, SeededRng, all_lists, different_puzzles, lengths_around, puzzle};
use rules::{BLACK, Mark, line_sum};

#[test]
fn the_puzzles_of_the_benchmark_differ() {
    for size in [6, 8] {
        let puzzles: HashSet<Puzzle> = different_puzzles(size, 1000).into_iter().collect();
        assert_eq!(puzzles.len(), 1000, "size {size}");
    }
}

#[test]
fn a_puzzle_that_was_drawn_before_is_left_out() {
    assert_eq!(puzzle(6, 165), puzzle(6, 671));
    assert_eq!(different_puzzles(6, 672)[671], puzzle(6, 672));
}

#[test]
fn lists_are_all_there() {
    let lists: HashSet<Vec<u8>> = all_lists(4, &[0, 7, 255]).collect();
    assert_eq!(lists.len(), 81);
    assert!(lists.contains(&vec![255, 0, 7, 7]));
}

#[test]
fn lengths_stand_around_their_limit() {
    assert_eq!(lengths_around(0), [0, 1]);
    assert_eq!(lengths_around(2), [0, 1, 2, 3, 4, 5]);
    assert_eq!(lengths_around(9), [0, 1, 8, 9, 10, 80, 81, 82]);
}

#[test]
fn rows_or_columns_come_near_255() {
    let mut rng = SeededRng::new(3);
    for _ in 0..200 {
        let cells = inputs::sums_near_255(&mut rng, 7);
        let near = |cells: &[u8]| cells.chunks_exact(7).all(is_near);
        assert!(near(&cells) || near(&inputs::transposed(7, &cells)));
    }
}

/// No room between the blacks, one cell that cannot hold more than 254, or a
/// sum of 253 to 257.
fn is_near(line: &[u8]) -> bool {
    let between = line.iter().skip_while(|&&cell| cell != BLACK).skip(1);
    let room = between.take_while(|&&cell| cell != BLACK).count();
    room == 0 || matches!(line_sum(line), Ok(253..=255) | Err(10))
}

#[test]
fn marks_are_of_their_size_and_of_every_kind() {
    let mut rng = SeededRng::new(5);
    for size in 2..=9 {
        let marks: HashSet<u16> = (0..40_000)
            .map(|_| inputs::any_mark(&mut rng, size))
            .collect();
        let all = (0..=u16::MAX).filter(|&mark| rules::marks_refusal(size, &[mark]).is_none());
        assert_eq!(marks, all.collect(), "size {size}");
    }
}

#[test]
fn half_of_the_lists_are_kept_by_their_grid() {
    let mut rng = SeededRng::new(6);
    let (mut kept, mut taken, mut repeated) = (0, 0, 0);
    for _ in 0..1000 {
        let cells = inputs::grid(&mut rng, 6);
        let marks = inputs::any_marks(&mut rng, 6, &cells);
        assert!(marks.len() <= 12);
        let different: HashSet<&u16> = marks.iter().collect();
        repeated += usize::from(different.len() < marks.len());
        taken += usize::from(marks.iter().any(|&mark| !Mark::unpack(mark).rejected));
        kept += usize::from(marks.iter().all(|&mark| rules::keeps_mark(6, &cells, mark)));
    }
    assert!((500..800).contains(&kept), "{kept} kept");
    assert!(
        taken > 700 && repeated > 200,
        "{taken} take, {repeated} repeat"
    );
}

#[test]
fn a_damaged_input_is_often_refused_and_in_every_way() {
    let mut rng = SeededRng::new(7);
    let mut refusals = HashSet::new();
    for _ in 0..2000 {
        let mut asked: Asked = inputs::of_a_grid(&mut rng, 5);
        inputs::damage_asked(&mut rng, &mut asked);
        let Asked { size, rows, .. } = &asked;
        let (columns, marks) = (&asked.columns, &asked.marks);
        refusals.insert(rules::count_refusal(
            rules::Unit::HALL,
            *size,
            rows,
            columns,
            marks,
        ));
    }
    let every = [None, Some(1), Some(2), Some(3), Some(4), Some(5), Some(6)];
    assert_eq!(refusals, HashSet::from(every));
}

#[test]
fn short_puzzles_have_more_than_one_grid() {
    for size in 3..=9 {
        let Puzzle { rows, columns, .. } = inputs::short_puzzle(size);
        assert_eq!(reference::count(size, &rows, &columns, &[], 2), 2);
    }
}
