//! The check of a line: its steps in sequence, and the lines that pass.

use inputs::all_lists;
use rules::LineFault::{Blacks, Digits, Sum};
use rules::{BLACK as B, EMPTY, Unit, line_fault, line_sum, mark_sheet};

/// Whether the line keeps its target, without any sequence: sorted, it is the
/// digits and two blacks, and it has the sum.
fn keeps(line: &[u8], target: u8) -> bool {
    let mut sorted = line.to_vec();
    sorted.sort();
    let symbols: Vec<u8> = (1..=line.len() as u8 - 2).chain([B, B]).collect();
    sorted == symbols && line_sum(line) == Ok(target)
}

/// Bytes that size 5 has and has not.
const BYTES: [u8; 8] = [EMPTY, 1, 2, 3, 4, 5, 254, B];

#[test]
fn a_line_without_fault_keeps_its_target() {
    for size in 2..=5 {
        for line in all_lists(size, &BYTES) {
            for target in [0, 1, 2, 3, 4, 5, 6, 7, 28, 254, 255] {
                assert_eq!(
                    line_fault(&line, target).is_none(),
                    keeps(&line, target),
                    "{line:?}, target {target}"
                );
            }
        }
    }
}

#[test]
fn the_first_step_that_fails_is_answered() {
    // One fault each.
    assert_eq!(line_fault(&[B, 1, 2, B], 3), None);
    assert_eq!(line_fault(&[2, B, 2, B], 2), Some(Digits));
    assert_eq!(line_fault(&[B, 1, 2, EMPTY], 3), Some(Blacks));
    assert_eq!(line_fault(&[B, 1, 2, 3], 3), Some(Blacks));
    assert_eq!(line_fault(&[1, B, 2, B], 3), Some(Sum));
    // Each pair, and all three.
    assert_eq!(line_fault(&[1, B, B, B], 0), Some(Digits));
    assert_eq!(line_fault(&[2, B, 2, B], 3), Some(Digits));
    assert_eq!(line_fault(&[B, 1, 2, 3], 28), Some(Blacks));
    assert_eq!(line_fault(&[1, B, B, B], 3), Some(Digits));
    // Sums that no byte holds are not looked at.
    assert_eq!(line_fault(&[B, 254, 254, B], 3), Some(Digits));
    assert_eq!(line_fault(&[1, 2, B, 254], 254), Some(Blacks));
    // The smallest size has no digits.
    assert_eq!(line_fault(&[B, B], 0), None);
    assert_eq!(line_fault(&[B, EMPTY], 0), Some(Blacks));
    assert_eq!(line_fault(&[B, B], 1), Some(Sum));
}

/// Two cells are left beside the digits.
#[test]
fn no_line_has_each_digit_once_and_a_third_black() {
    for size in 2..=5 {
        for line in all_lists(size, &BYTES) {
            let blacks = line.iter().filter(|&&cell| cell == B).count();
            assert!(
                blacks <= 2 || line_fault(&line, 0) == Some(Digits),
                "{line:?}"
            );
        }
    }
}

#[test]
fn a_sheet_is_right_if_no_line_has_a_fault() {
    for cells in all_lists(9, &[1, 2, B]) {
        for targets in all_lists(6, &[0, 1]) {
            let (rows, columns) = targets.split_at(3);
            let row = |r: usize| cells[3 * r..][..3].to_vec();
            let column = |c: usize| [cells[c], cells[3 + c], cells[6 + c]];
            let right = (0..3).all(|r| keeps(&row(r), rows[r]))
                && (0..3).all(|c| keeps(&column(c), columns[c]));
            assert_eq!(mark_sheet(Unit::HALL, 3, rows, columns, &cells), Ok(right));
        }
    }
}
