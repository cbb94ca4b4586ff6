//! The sample sheets of the requirements, answered by the published Rust.

use reference::{Limit, Solved, accepts, candidates, count, solve};
use rules::BLACK as B;

#[test]
fn size_2_has_one_grid_and_one_target() {
    assert_eq!(count(2, &[0, 0], &[0, 0], &[], 9), 1);
    assert_eq!(solve(2, &[0, 0], &[0, 0], &[]), Solved::Unique(vec![B; 4]));
    assert!(!accepts(2, &[1, 0], &[0, 0]));
}

#[test]
fn size_3_has_six_grids() {
    let grids: usize = all_targets_of_size_3()
        .map(|(rows, columns)| count(3, &rows, &columns, &[], 100))
        .sum();
    assert_eq!(grids, 6);
}

#[test]
fn a_count_stops_at_its_cap() {
    assert_eq!(count(3, &[1, 0, 0], &[1, 0, 0], &[], 2), 1);
    for (cap, expected) in [(0, 0), (1, 1), (2, 2), (3, 2)] {
        assert_eq!(count(3, &[0, 1, 0], &[0, 1, 0], &[], cap), expected);
    }
    assert_eq!(count(3, &[1, 1, 0], &[0, 1, 0], &[], 2), 0);
}

#[test]
fn marks_narrow_a_count() {
    for (marks, expected) in [
        (&[0x0008][..], 1),
        (&[0x8008], 1),
        (&[0x0008, 0x0008], 1),
        (&[0x0008, 0x8008], 0),
        (&[0x0008, 0x0108], 0),
    ] {
        let counted = count(3, &[0, 1, 0], &[0, 1, 0], marks, 2);
        assert_eq!(counted, expected, "marks {marks:04x?}");
    }
}

#[test]
fn size_4_with_rows_all_3_has_no_grid() {
    for code in 0..256u32 {
        let columns: Vec<u8> = (0..4).map(|c| (code >> (2 * c) & 3) as u8).collect();
        assert_eq!(
            count(4, &[3; 4], &columns, &[], 2),
            0,
            "columns {columns:?}"
        );
    }
}

#[test]
fn size_9_takes_28_and_not_29() {
    assert!(accepts(9, &[28; 9], &[28; 9]));
    assert!(!accepts(9, &[28; 9], &[28, 28, 28, 28, 28, 28, 28, 28, 29]));
}

/// The four lines of the program `sheet`; the last is refused before the solver.
#[test]
fn the_lines_of_sheet() {
    assert_eq!(
        solve(3, &[1, 0, 0], &[1, 0, 0], &[]),
        Solved::Unique(vec![B, 1, B, 1, B, B, B, B, 1])
    );
    assert_eq!(
        solve(3, &[0, 1, 0], &[0, 1, 0], &[]),
        Solved::Multiple(vec![1, B, B, B, 1, B, B, B, 1])
    );
    assert_eq!(solve(3, &[1, 1, 0], &[0, 1, 0], &[]), Solved::Unsolvable);
    assert!(!accepts(3, &[2, 0, 0], &[0, 0, 0]));
}

/// Counts, verdicts and grids at sizes 2 and 3 against the definition, for
/// every puzzle and every mark alone.
#[test]
fn small_sizes_agree_with_the_definition() {
    let ways: Vec<Vec<u8>> = rules::ways(3).collect();
    let marks = marks_of_size_3();
    for (rows, columns) in all_targets_of_size_3() {
        agrees(&ways, &rows, &columns, &[]);
        for &mark in &marks {
            agrees(&ways, &rows, &columns, &[mark]);
        }
    }
    assert_eq!(rules::ways(2).count(), 1);
    assert!(rules::ways(2).all(|cells| rules::satisfies(2, &[0, 0], &[0, 0], &[], &cells)));
}

fn agrees(ways: &[Vec<u8>], rows: &[u8], columns: &[u8], marks: &[u16]) {
    let satisfied = |cells: &&Vec<u8>| rules::satisfies(3, rows, columns, marks, cells);
    let number = ways.iter().filter(satisfied).count();
    assert_eq!(count(3, rows, columns, marks, 100), number);
    match solve(3, rows, columns, marks) {
        Solved::Unsolvable => assert_eq!(number, 0),
        Solved::Unique(cells) => assert!(number == 1 && satisfied(&&cells)),
        Solved::Multiple(cells) => assert!(number > 1 && satisfied(&&cells)),
    }
    if candidates(3, rows, columns, marks).is_none() {
        assert_eq!(number, 0);
    }
}

fn all_targets_of_size_3() -> impl Iterator<Item = (Vec<u8>, Vec<u8>)> {
    (0..64u32).map(|code| {
        let bits: Vec<u8> = (0..6).map(|i| (code >> i & 1) as u8).collect();
        (bits[..3].to_vec(), bits[3..].to_vec())
    })
}

fn marks_of_size_3() -> Vec<u16> {
    (0..=u16::MAX)
        .filter(|&word| rules::marks_refusal(3, &[word]).is_none())
        .collect()
}

#[test]
fn a_table_of_one_grid_has_one_candidate_for_each_half() {
    // Left and right row black are the bits 2 and 3, upper and lower column
    // black the bits 4 and 5.
    let (left, right, upper, lower) = (4, 8, 16, 32);
    assert_eq!(
        candidates(3, &[1, 0, 0], &[1, 0, 0], &[]),
        Some(vec![
            left | upper,
            2,
            right | upper,
            2,
            left | upper,
            right | lower,
            left | lower,
            right | lower,
            2,
        ])
    );
}

#[test]
fn a_contradiction_can_go_unseen_by_propagation() {
    let (rows, columns) = ([0, 2, 5, 0, 0], [0, 0, 0, 2, 0]);
    assert_eq!(count(5, &rows, &columns, &[], 1), 0);
    assert!(candidates(5, &rows, &columns, &[]).is_some());
}

#[test]
fn a_search_past_its_limit_gives_nothing() {
    let (rows, columns) = ([0, 1, 0], [0, 1, 0]);
    let within = |nodes| reference::count_within(Limit::Nodes(nodes), 3, &rows, &columns, &[], 3);
    assert_eq!(within(0), None);
    assert_eq!(within(1000), Some(2));
    let solved = reference::solve_within(Limit::Nodes(1000), 3, &rows, &columns, &[]);
    assert_eq!(solved, Some(solve(3, &rows, &columns, &[])));
}
