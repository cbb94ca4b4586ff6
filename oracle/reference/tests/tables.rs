//! Where the Rust's table is the one of the rules, and where it keeps more: the Rust
//! lets an arrangement live by a digit that is possible in its end cells alone.

use reference::candidates;
use rules::{every_grid, is_closed, marks_refusal, remaining};

fn marks_of_size(size: usize) -> impl Iterator<Item = u16> {
    (0..=u16::MAX).filter(move |&word| marks_refusal(size, &[word]).is_none())
}

fn agree(rows: &[u8], columns: &[u8], marks: &[u16]) -> bool {
    let size = rows.len();
    candidates(size, rows, columns, marks) == remaining(size, rows, columns, marks)
}

#[test]
fn no_table_of_sizes_2_and_3_differs() {
    for (size, puzzles) in [(2, 1), (3, 64)] {
        for code in 0..puzzles {
            let targets: Vec<u8> = (0..2 * size).map(|i| (code >> i & 1) as u8).collect();
            let (rows, columns) = targets.split_at(size);
            assert!(agree(rows, columns, &[]), "{targets:?}");
            for mark in marks_of_size(size) {
                assert!(agree(rows, columns, &[mark]), "{targets:?}, {mark:x}");
            }
        }
    }
}

#[test]
fn a_contradiction_that_the_rust_does_not_see() {
    let (rows, columns) = ([1, 1, 0, 0], [0; 4]);
    let table = candidates(4, &rows, &columns, &[]).expect("a table");
    assert!(!is_closed(4, &rows, &columns, &table));
    assert_eq!(remaining(4, &rows, &columns, &[]), None);
    assert_eq!(every_grid(4, &rows, &columns, &[]), Some(Vec::new()));
}

/// A digit 1 more at row 2, column 3, where a grid is left.
#[test]
fn a_candidate_that_the_rust_keeps() {
    let (rows, columns) = ([2, 0, 4, 4, 0], [3, 1, 6, 3, 0]);
    let mut table = candidates(5, &rows, &columns, &[]).expect("a table");
    assert!(!is_closed(5, &rows, &columns, &table));
    table[2 * 5 + 3] &= !2;
    assert_eq!(remaining(5, &rows, &columns, &[]), Some(table));
    let grids = every_grid(5, &rows, &columns, &[]);
    assert_eq!(grids.map(|grids| grids.len()), Some(1));
}
