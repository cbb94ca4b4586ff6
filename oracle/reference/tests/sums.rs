//! `compute_targets` and the numbers for its panics.

use rand::SeededRng;
use reference::{random_grid, target_sums};
use rules::BLACK as B;

#[test]
fn sums_of_a_small_grid() {
    let cells = [B, 1, B, 1, B, B, B, B, 1];
    assert_eq!(target_sums(3, &cells), Ok((vec![1, 0, 0], vec![1, 0, 0])));
}

#[test]
fn panics_become_numbers() {
    assert_eq!(target_sums(2, &[0; 4]), Err(8));
    assert_eq!(target_sums(2, &[B, 0, B, B]), Err(8));
    assert_eq!(target_sums(3, &[B; 9]), Err(8));
    assert_eq!(target_sums(3, &[B, 0, B, 1, B, B, B, B, 1]), Err(9));
    let mut first_row = vec![B, 1, 254, B, 1];
    assert_eq!(
        target_sums(5, &first_row_then_diagonals(&first_row)),
        Err(8)
    );
    first_row[1] = 2;
    assert_eq!(
        target_sums(5, &first_row_then_diagonals(&first_row)),
        Err(10)
    );
}

/// The documented difference: the Rust stops at the overflow, the rules see the
/// empty cell of the same line.
#[test]
fn an_overflow_before_an_empty_cell() {
    let cells = first_row_then_diagonals(&[B, 3, 254, 0, B]);
    assert_eq!(target_sums(5, &cells), Err(10));
    assert_eq!(
        rules::target_sums(rules::Unit::HALL, 5, &cells, 5, 5),
        Err(9)
    );
    let cells = first_row_then_diagonals(&[B, 0, 3, 254, B]);
    assert_eq!(target_sums(5, &cells), Err(9));
}

/// Rows below the first that have no fault; the columns have one.
fn first_row_then_diagonals(first_row: &[u8]) -> Vec<u8> {
    let mut cells = first_row.to_vec();
    for row in 1..5 {
        cells.extend((0..5).map(|column| if column == row || column == 0 { B } else { 1 }));
    }
    cells
}

#[test]
fn drawn_grids_satisfy_the_rules() {
    let mut rng = SeededRng::new(7);
    for size in 2..=9 {
        let cells = random_grid(size, &mut rng);
        let (rows, columns) = target_sums(size, &cells).expect("a grid has sums");
        assert!(rules::satisfies(size, &rows, &columns, &[], &cells));
    }
}

#[test]
fn this_build_checks_overflow() {
    assert!(reference::overflow_is_checked());
}

#[test]
#[should_panic(expected = "no size 10")]
fn other_sizes_are_not_there() {
    let _ = target_sums(10, &[0; 100]);
}
