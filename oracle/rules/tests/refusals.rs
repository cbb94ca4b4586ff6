//! The first fault in the order of the requirements decides.

use rules::{
    BLACK as B, Mark, Unit, count_refusal, line_sum, mark_sheet, marks_refusal, solve_refusal,
    target_sums,
};

const GOOD: [u8; 9] = [B, 1, B, 1, B, B, B, B, 1];

#[test]
fn target_sums_check_size_cells_lengths() {
    // Each call has all later faults as well.
    assert_eq!(target_sums(Unit::HALL, 1, &[], 0, 0), Err(1));
    assert_eq!(target_sums(Unit::HALL, 10, &[0; 100], 9, 9), Err(1));
    assert_eq!(target_sums(Unit::HALL, usize::MAX, &[], 0, 0), Err(1));
    assert_eq!(target_sums(Unit::HALL, 3, &[0; 8], 2, 4), Err(7));
    assert_eq!(target_sums(Unit::HALL, 3, &[0; 10], 2, 4), Err(7));
    assert_eq!(target_sums(Unit::HALL, 3, &[0; 9], 2, 3), Err(2));
    assert_eq!(target_sums(Unit::HALL, 3, &[0; 9], 3, 4), Err(2));
    assert_eq!(target_sums(Unit::HALL, 3, &[0; 9], 3, 3), Err(8));
    assert_eq!(
        target_sums(Unit::HALL, 3, &GOOD, 3, 3),
        Ok((vec![1, 0, 0], vec![1, 0, 0]))
    );
}

#[test]
fn lines_are_checked_one_after_the_other() {
    // Row 0 has too large a sum, row 1 too few blacks: the earlier line decides.
    let mut cells = vec![
        B, 200, 100, B, //
        1, 1, 1, B, //
        B, 0, B, 1, //
        1, B, 1, B,
    ];
    assert_eq!(target_sums(Unit::HALL, 4, &cells, 4, 4), Err(10));
    cells[1] = 1;
    assert_eq!(target_sums(Unit::HALL, 4, &cells, 4, 4), Err(8));
    cells[4] = B;
    assert_eq!(target_sums(Unit::HALL, 4, &cells, 4, 4), Err(9));
}

#[test]
fn rows_come_before_columns() {
    // Every column has three blacks or one; the empty cell of row 2 decides.
    let cells = [
        B, B, 1, 1, //
        B, B, 1, 1, //
        B, 0, B, 1, //
        1, B, 1, B,
    ];
    assert_eq!(target_sums(Unit::HALL, 4, &cells, 4, 4), Err(9));
}

#[test]
fn a_line_gives_8_then_9_then_10() {
    assert_eq!(line_sum(&[B, 200, 0, 100, 1]), Err(8));
    assert_eq!(line_sum(&[B, 200, B, 100, B]), Err(8));
    assert_eq!(line_sum(&[B, 3, 254, 0, B]), Err(9));
    assert_eq!(line_sum(&[B, 3, 254, 1, B]), Err(10));
    assert_eq!(line_sum(&[B, 1, 254, B, 0]), Ok(255));
    assert_eq!(line_sum(&[B, 2, 254, B, 0]), Err(10));
    assert_eq!(line_sum(&[0, 0, B, B, 0]), Ok(0));
}

#[test]
fn marking_checks_size_lengths_targets_cells() {
    assert_eq!(mark_sheet(Unit::HALL, 0, &[9], &[], &[]), Err(1));
    assert_eq!(mark_sheet(Unit::HALL, 3, &[9, 9], &[9; 3], &[]), Err(2));
    assert_eq!(mark_sheet(Unit::HALL, 3, &[1; 3], &[0, 0, 2], &[]), Err(3));
    assert_eq!(mark_sheet(Unit::HALL, 3, &[1; 3], &[1; 3], &[]), Err(7));
    assert_eq!(
        mark_sheet(Unit::HALL, 3, &[1, 0, 0], &[1, 0, 0], &GOOD),
        Ok(true)
    );
    assert_eq!(
        mark_sheet(Unit::HALL, 3, &[1, 0, 0], &[1, 0, 1], &GOOD),
        Ok(false)
    );
    assert_eq!(
        mark_sheet(Unit::HALL, 3, &[1, 0, 0], &[1, 0, 0], &[0; 9]),
        Ok(false)
    );
}

/// The key of one puzzle, two sheets that have its sums, and other bytes.
#[test]
fn a_right_sheet_has_every_digit_once_in_each_line() {
    let (rows, columns) = ([0, 2, 0, 2], [0, 0, 3, 0]);
    let key = [2, 1, B, B, 1, B, 2, B, B, B, 1, 2, B, 2, B, 1];
    assert_eq!(mark_sheet(Unit::HALL, 4, &rows, &columns, &key), Ok(true));

    let in_a_row = [1, 2, B, B, 2, B, 2, B, B, B, 1, 2, B, 2, B, 1];
    let in_columns_only = [1, 2, B, B, 1, B, 2, B, B, B, 1, 2, B, 2, B, 1];
    let own_sums = Ok((rows.to_vec(), columns.to_vec()));
    for repeated in [in_a_row, in_columns_only] {
        assert_eq!(target_sums(Unit::HALL, 4, &repeated, 4, 4), own_sums);
        assert_eq!(
            mark_sheet(Unit::HALL, 4, &rows, &columns, &repeated),
            Ok(false)
        );
    }
    for other in [0, 3, 254, B] {
        let mut cells = key;
        cells[0] = other;
        assert_eq!(
            mark_sheet(Unit::HALL, 4, &rows, &columns, &cells),
            Ok(false)
        );
    }
}

#[test]
fn the_greatest_target_of_each_size() {
    for size in 2..=9 {
        let greatest: usize = (1..=size - 2).sum();
        assert_eq!(rules::greatest_target(size), greatest);
        let target = vec![greatest as u8; size];
        let above = vec![greatest as u8 + 1; size];
        assert_eq!(
            rules::puzzle_refusal(Unit::HALL, size, &target, &target),
            None
        );
        assert_eq!(
            rules::puzzle_refusal(Unit::HALL, size, &target, &above),
            Some(3)
        );
    }
}

#[test]
fn marks_are_unpacked_from_the_top() {
    let mark = |rejected, row, column, value, spare| Mark {
        rejected,
        row,
        column,
        value,
        spare,
    };
    assert_eq!(Mark::unpack(0x0008), mark(false, 0, 0, 1, 0));
    assert_eq!(Mark::unpack(0x8008), mark(true, 0, 0, 1, 0));
    assert_eq!(Mark::unpack(0x0108), mark(false, 0, 2, 1, 0));
    assert_eq!(Mark::unpack(0x08C0), mark(false, 1, 1, 8, 0));
    assert_eq!(Mark::unpack(0xFFFF), mark(true, 15, 15, 15, 7));
    for word in 0..=u16::MAX {
        assert_eq!(Mark::unpack(word).pack(), word);
    }
}

#[test]
fn marks_check_spare_bits_place_value() {
    let refused = |size, row, column, value, spare| {
        marks_refusal(size, &[Mark::rejecting(row, column, value, spare)])
    };
    assert_eq!(refused(3, 3, 3, 0, 1), Some(4));
    assert_eq!(refused(3, 3, 0, 0, 0), Some(5));
    assert_eq!(refused(3, 0, 3, 0, 0), Some(5));
    assert_eq!(refused(3, 0, 0, 0, 0), Some(6));
    assert_eq!(refused(3, 0, 0, 1, 0), None);
    assert_eq!(refused(3, 0, 0, 2, 0), Some(6));
    assert_eq!(refused(2, 0, 0, 1, 0), Some(6));
    assert_eq!(refused(9, 8, 8, 7, 0), None);
    assert_eq!(refused(9, 8, 8, 8, 0), None);
    assert_eq!(refused(9, 8, 8, 11, 0), None);
    assert_eq!(refused(9, 8, 8, 12, 0), Some(6));
    // The first faulty mark decides, not the smallest number.
    assert_eq!(marks_refusal(3, &[0x0008, 0x0010, 0x0001]), Some(6));
    assert_eq!(marks_refusal(3, &[]), None);
}

/// All later faults are there as well.
#[test]
fn a_unit_asks_for_the_size_right_after_1() {
    for size in 0..=11 {
        let due = match size {
            2..=6 => None,
            7..=9 => Some(18),
            _ => Some(1),
        };
        let sums = target_sums(Unit::CLASSROOM, size, &[], 99, 0);
        assert_eq!(sums, Err(due.unwrap_or(7)));
        let sheet = mark_sheet(Unit::CLASSROOM, size, &[99], &[], &[]);
        assert_eq!(sheet, Err(due.unwrap_or(2)));
        let marks = [0xFF; 200];
        let solve = solve_refusal(Unit::CLASSROOM, size, &[99], &[], &marks, 0);
        assert_eq!(solve, due.or(Some(2)));
        let hall = solve_refusal(Unit::HALL, size, &[99], &[], &marks, 0);
        assert_eq!(hall, due.filter(|&number| number == 1).or(Some(2)));
    }
}

#[test]
fn a_unit_asks_for_the_list_after_3_and_before_any_mark() {
    let zero = [0; 3];
    let good = |bytes: usize| -> Vec<u8> { [0, 8].into_iter().cycle().take(bytes).collect() };
    let classroom = |marks: &[u8]| count_refusal(Unit::CLASSROOM, 3, &zero, &zero, marks);
    let hall = |marks: &[u8]| count_refusal(Unit::HALL, 3, &zero, &zero, marks);
    let due = [
        (78, None),
        (79, Some(4)),
        (80, None),
        (81, Some(19)),
        (82, Some(19)),
        (2000, Some(19)),
    ];
    for (bytes, number) in due {
        assert_eq!(classroom(&good(bytes)), number);
        let in_the_hall = number.and((bytes % 2 == 1).then_some(4));
        assert_eq!(hall(&good(bytes)), in_the_hall);
    }
    assert_eq!(classroom(&[0xFF; 80]), Some(4));
    assert_eq!(classroom(&[0xFF; 82]), Some(19));
    assert_eq!(hall(&[0xFF; 82]), Some(4));
    let above = count_refusal(Unit::CLASSROOM, 3, &[2, 0, 0], &zero, &good(82));
    assert_eq!(above, Some(3));
    let room = |bytes| solve_refusal(Unit::CLASSROOM, 3, &zero, &zero, &good(bytes), 8);
    assert_eq!((room(80), room(82)), (Some(7), Some(19)));
}
