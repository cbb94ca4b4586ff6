//! What the searching calls have to answer, on inputs whose answer is known.

use std::collections::BTreeSet;

use rules::{
    BLACK as B, Unit, candidates_refusal, count_refusal, every_grid, has_grid, is_filled, marks_of,
    satisfies, shows_mark, solve_refusal, ways, word_bytes,
};

const ZERO: [u8; 3] = [0; 3];

#[test]
fn half_a_mark_is_refused_in_its_turn() {
    let refused = |marks: &[u8]| count_refusal(Unit::HALL, 3, &ZERO, &ZERO, marks);
    assert_eq!(refused(&[]), None);
    assert_eq!(refused(&[0x00, 0x08]), None);
    assert_eq!(refused(&[0x00]), Some(4));
    assert_eq!(refused(&[0x00, 0x08, 0x00]), Some(4));
    assert_eq!(refused(&[0x00, 0x10, 0x00]), Some(6));
    assert_eq!(marks_of(&word_bytes(&[0x08C0, 0x8008])), [0x08C0, 0x8008]);
}

#[test]
fn the_first_fault_decides() {
    let solve = |size, rows: &[u8], marks: &[u8], length| {
        assert_eq!(
            solve_refusal(Unit::HALL, size, rows, &ZERO, marks, length),
            candidates_refusal(Unit::HALL, size, rows, &ZERO, marks, 2 * length)
        );
        solve_refusal(Unit::HALL, size, rows, &ZERO, marks, length)
    };
    assert_eq!(solve(10, &[9], &[1], 0), Some(1));
    assert_eq!(solve(3, &[9], &[1], 0), Some(2));
    assert_eq!(solve(3, &[2, 0, 0], &[1], 0), Some(3));
    assert_eq!(solve(3, &ZERO, &[1], 0), Some(4));
    assert_eq!(solve(3, &ZERO, &[0x7F, 0xF8], 0), Some(5));
    assert_eq!(solve(3, &ZERO, &[], 8), Some(7));
    assert_eq!(solve(3, &ZERO, &[], 9), None);
    assert_eq!(
        candidates_refusal(Unit::HALL, 3, &ZERO, &ZERO, &[], 17),
        Some(7)
    );
    assert_eq!(
        candidates_refusal(Unit::HALL, 3, &ZERO, &ZERO, &[], 9),
        Some(7)
    );
}

/// Rows laid one under the other find what trying every way finds.
#[test]
fn every_grid_of_size_3_is_listed() {
    let mut listed = BTreeSet::new();
    for code in 0..64u32 {
        let targets: Vec<u8> = (0..6).map(|i| (code >> i & 1) as u8).collect();
        let (rows, columns) = targets.split_at(3);
        let found: BTreeSet<Vec<u8>> = every_grid(3, rows, columns, &[])
            .expect("size 3 is listed")
            .into_iter()
            .map(<[u8]>::to_vec)
            .collect();
        let tried = ways(3).filter(|cells| satisfies(3, rows, columns, &[], cells));
        assert_eq!(found, tried.collect(), "{targets:?}");
        listed.extend(found);
    }
    assert_eq!(listed.len(), 6);
}

#[test]
fn sample_sheets_are_counted() {
    let two = |marks: &[u16]| every_grid(3, &[0, 1, 0], &[0, 1, 0], marks).map(|grids| grids.len());
    assert_eq!(two(&[]), Some(2));
    assert_eq!(two(&[0x0008]), Some(1));
    assert_eq!(two(&[0x8008]), Some(1));
    assert_eq!(two(&[0x0008, 0x0008]), Some(1));
    assert_eq!(two(&[0x0008, 0x8008]), Some(0));
    assert_eq!(two(&[0x0008, 0x0108]), Some(0));
    assert_eq!(
        every_grid(2, &[0; 2], &[0; 2], &[]),
        Some(vec![&[B; 4][..]])
    );
    assert_eq!(every_grid(4, &[3; 4], &[0; 4], &[]), Some(Vec::new()));
    let hidden = every_grid(5, &[0, 2, 5, 0, 0], &[0, 0, 0, 2, 0], &[]);
    assert_eq!(hidden, Some(Vec::new()));
    assert_eq!(every_grid(6, &[0; 6], &[0; 6], &[]), None);
}

#[test]
fn a_table_shows_its_marks_and_grids() {
    let grid = [B, 1, B, 1, B, B, B, B, 1];
    let table = [20, 2, 24, 2, 20, 40, 36, 40, 2];
    assert!(has_grid(3, &table, &grid) && is_filled(&table));
    for place in 0..9 {
        let mut less = table;
        less[place] &= less[place] - 1;
        assert!(!has_grid(3, &less, &grid));
        less[place] = 0;
        assert!(!is_filled(&less));
    }
    // Take a 1 in the second cell, the left and the upper black in the first.
    for mark in [0x0088, 0x0040, 0x0050] {
        assert!(shows_mark(3, &table, mark));
        assert!(!shows_mark(3, &table, mark | 0x8000));
    }
    // A 1 beside a black is not alone; a row black beside a column black is.
    assert!(!shows_mark(3, &[0, 6, 0, 0, 0, 0, 0, 0, 0], 0x0088));
    assert!(!shows_mark(3, &[12, 0, 0, 0, 0, 0, 0, 0, 0], 0x0040));
}
