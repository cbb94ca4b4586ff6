//! The order of grids, and the search that comes to the first of them.

use inputs::{Asked, SeededRng};
use rules::{
    BLACK, columns_of, every_grid, first_grid, first_grids, keeps_mark, marks_before, marks_of,
    marks_refusal, put_in_order, sequence,
};

/// The cells of a grid as it is printed.
fn cells(printed: &str) -> Vec<u8> {
    let signs = printed.bytes().filter(|&sign| sign != b'/');
    signs
        .map(|sign| if sign == b'#' { BLACK } else { sign - b'0' })
        .collect()
}

#[test]
fn blacks_come_before_digits_and_great_digits_before_small_ones() {
    let values = |size| -> Vec<(usize, u8)> {
        let values = sequence(size).into_iter();
        values.map(|value| (value.row, value.value)).collect()
    };
    assert_eq!(values(2), [(0, 9), (0, 8), (1, 9), (1, 8)]);
    #[rustfmt::skip]
    assert_eq!(values(4), [
        (0, 9), (0, 8), (1, 9), (1, 8), (2, 9), (2, 8), (3, 9), (3, 8),
        (0, 2), (1, 2), (2, 2), (3, 2), (0, 1), (1, 1), (2, 1), (3, 1),
    ]);
}

#[test]
fn the_columns_of_a_grid() {
    let columns = columns_of(3, &cells("1##/#1#/##1"));
    assert_eq!(columns, [2, 1, 2, 0, 1, 0, 0, 1, 2]);
    let columns = columns_of(4, &cells("#1#2/2#1#/1##2/#21#"));
    assert_eq!(columns[..8], [2, 0, 3, 1, 2, 1, 3, 0]);
    assert_eq!(columns[8..], [3, 0, 3, 1, 1, 2, 0, 2]);
}

/// These grids of a puzzle, which are all of its grids up to size 5, come in this order.
fn shows(rows: &[u8], columns: &[u8], grids: &[&str]) {
    let size = rows.len();
    let grids: Vec<Vec<u8>> = grids.iter().map(|printed| cells(printed)).collect();
    assert_eq!(first_grid(size, rows, columns, &[]), Some(grids[0].clone()));
    if let Some(listed) = every_grid(size, rows, columns, &[]) {
        assert_eq!(listed, grids);
    }
    let mut ordered = grids.clone();
    ordered.reverse();
    put_in_order(size, &mut ordered);
    assert_eq!(ordered, grids);
}

#[test]
fn the_sample_sheet_shows_its_first_grid() {
    shows(&[0, 1, 0], &[0, 1, 0], &["1##/#1#/##1", "##1/#1#/1##"]);
    let other = first_grid(3, &[0, 1, 0], &[0, 1, 0], &[0x8008]);
    assert_eq!(other, Some(cells("##1/#1#/1##")));
}

/// Row 0 has its right black further right in the first grid, row 3 in the second.
#[test]
fn further_right_comes_first_and_rows_go_from_the_top() {
    let grids = ["1#2#/2#1#/#2#1/#1#2", "#2#1/#1#2/1#2#/2#1#"];
    shows(&[2, 1, 2, 1], &[0; 4], &grids);
}

/// The first grid has the right black of row 0 further right, the second one its 2.
#[test]
fn a_black_comes_before_a_digit() {
    let grids = ["2#1#/1#2#/#2#1/#1#2", "#1#2/#2#1/1#2#/2#1#"];
    shows(&[1, 2, 2, 1], &[0; 4], &grids);
}

/// The blacks are in the same cells. The first grid has the 2 of row 0 further right, the
/// second one its 1.
#[test]
fn digits_go_from_the_greatest_and_their_rows_from_the_top() {
    let grids = ["#12#/12##/2##1/##12", "#21#/21##/1##2/##21"];
    shows(&[3, 0, 0, 0], &[3, 0, 0, 0], &grids);
    // Here the second grid has the 2 of row 3 further right.
    let grids = ["##12/#12#/12##/2##1", "##21/#21#/21##/1##2"];
    shows(&[0, 3, 0, 0], &[0, 3, 0, 0], &grids);
}

/// The first grid has the left black of row 0 further right, the second one the right black
/// of row 1.
#[test]
fn both_blacks_of_a_row_come_before_the_next_row() {
    let grids = [
        "21#3#/##123/#23#1/13##2/3#21#",
        "3#21#/13##2/#23#1/##123/21#3#",
    ];
    shows(&[3, 0, 5, 0, 3], &[0, 5, 4, 0, 6], &grids);
}

/// The first grid has the 3 of row 3 further right, the second one the 2 of row 0.
#[test]
fn a_digit_goes_through_all_rows_before_the_next_digit() {
    let grids = [
        "3##21/#21#3/1##32/213##/#321#",
        "3##12/#21#3/2##31/132##/#132#",
    ];
    shows(&[0, 3, 0, 0, 6], &[3, 2, 1, 3, 0], &grids);
}

/// In row 0 the first grid has the right black further right, the other one the left black:
/// three digits lie between the blacks, or one. No smaller size has two such rows of one
/// target.
#[test]
fn the_right_black_comes_before_the_left_one() {
    let printed = [
        "4#132#56/#526#431/645#1#23/#142536#/3#64#512/13#5624#/263#41#5/52#136#4",
        "32#6#541/413#625#/53#1#462/#542361#/6#154#23/#62351#4/146#23#5/2#541#36",
    ];
    shows(
        &[6, 13, 1, 21, 10, 17, 5, 10],
        &[6, 10, 3, 11, 6, 4, 0, 2],
        &printed,
    );
}

/// The search finds the grids of the list, in its order. Gives them.
fn agree(rows: &[u8], columns: &[u8], marks: &[u16]) -> Vec<&'static [u8]> {
    let size = rows.len();
    let grids = every_grid(size, rows, columns, marks).expect("a listed size");
    for cap in [1, 2, usize::MAX] {
        let front = &grids[..grids.len().min(cap)];
        let found = first_grids(size, rows, columns, marks, cap);
        assert_eq!(found, front, "{rows:?} {columns:?} {marks:x?}");
    }
    grids
}

#[test]
fn the_search_finds_the_grids_of_every_puzzle_up_to_size_4_in_their_order() {
    for (size, alphabet) in [(2, &[0][..]), (3, &[0, 1]), (4, &[0, 1, 2, 3])] {
        for targets in inputs::all_lists(2 * size, alphabet) {
            let (rows, columns) = targets.split_at(size);
            agree(rows, columns, &[]);
            // With each mark where that is soon done.
            let marks = (0..=u16::MAX).filter(|_| size < 4);
            for mark in marks.filter(|&mark| marks_refusal(size, &[mark]).is_none()) {
                agree(rows, columns, &[mark]);
            }
        }
    }
}

/// Each of these grids in their order keeps one of the lists of each later grid, and none of
/// the others.
fn come_in_order(size: usize, grids: &[&[u8]]) {
    for (place, cells) in grids.iter().enumerate() {
        let lists = marks_before(size, cells);
        for (other, cells) in grids.iter().enumerate() {
            let keeps = |&mark: &u16| keeps_mark(size, cells, mark);
            let kept = lists.iter().filter(|marks| marks.iter().all(keeps));
            assert_eq!(kept.count(), usize::from(other < place), "{cells:x?}");
        }
    }
}

#[test]
fn the_search_finds_the_grids_under_marks_in_their_order() {
    let mut rng = SeededRng::new(10);
    for _ in 0..2000 {
        for size in 3..=5 {
            for draw in [inputs::of_a_grid, inputs::of_random_targets] {
                let asked: Asked = draw(&mut rng, size);
                let grids = agree(&asked.rows, &asked.columns, &marks_of(&asked.marks));
                come_in_order(size, &grids);
            }
        }
    }
}

/// The puzzle in which the right black comes before the left one.
#[test]
fn a_grid_before_another_is_seen_at_size_8() {
    let (rows, columns) = ([6, 13, 1, 21, 10, 17, 5, 10], [6, 10, 3, 11, 6, 4, 0, 2]);
    let grids = first_grids(8, &rows, &columns, &[], usize::MAX);
    let grids: Vec<&[u8]> = grids.iter().map(Vec::as_slice).collect();
    assert_eq!(grids.len(), 3);
    come_in_order(8, &grids);
}
