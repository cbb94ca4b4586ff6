//! Arrangements, closed tables and the candidates that remain, on inputs that can be
//! followed by hand and against every grid of the small sizes.

use inputs::{Rng, SeededRng};
use rules::{
    Arrangement, arrangements, column_blacks, every_grid, first_grid, has_grid, is_closed,
    is_filled, marks_of, marks_refusal, remaining, row_blacks, satisfies, shows_mark,
};

fn of_row(size: usize, target: u8) -> Vec<Arrangement> {
    arrangements(size, target, row_blacks(size))
}

fn is_inside(size: usize, arrangement: &Arrangement) -> bool {
    arrangement.start + arrangement.cells.len() <= size
}

#[test]
fn the_arrangements_of_document_01_are_counted() {
    assert_eq!(of_row(3, 1).len(), 2);
    assert_eq!(of_row(3, 0).len(), 4);
    let of_twelve = of_row(9, 12);
    let inside = of_twelve.iter().filter(|one| is_inside(9, one)).count();
    assert_eq!((inside, of_twelve.len()), (39, 78));
    assert!((0..=28).all(|target| of_row(9, target).len() <= 78));
}

#[test]
fn an_arrangement_begins_with_the_first_black_or_wraps_to_it() {
    let [left, right] = row_blacks(3);
    let arrangement = |start, digit_set, cells: &[(usize, u16)]| Arrangement {
        start,
        digit_set,
        cells: cells.to_vec(),
    };
    let expected = [
        arrangement(0, 2, &[(0, left), (1, 2), (2, right)]),
        arrangement(2, 0, &[(2, right), (0, left)]),
    ];
    assert_eq!(of_row(3, 1), expected);
    let [upper, lower] = column_blacks(3);
    let around = arrangement(1, 2, &[(1, lower), (2, 2), (0, upper)]);
    assert!(arrangements(3, 0, column_blacks(3)).contains(&around));
}

/// Size 4, target 0: right black, 1 and 2 in two cells, left black.
fn around(start: usize) -> Arrangement {
    let arrangements = of_row(4, 0).into_iter();
    let mut around = arrangements.filter(|one| one.digit_set == 6);
    around
        .find(|one| one.start == start)
        .expect("one from each start")
}

#[test]
fn only_the_cells_between_the_ends_keep_a_digit() {
    let [left, right] = row_blacks(4);
    // The blacks stand in places 0 and 1, the cells between are 2 and 3.
    assert!(around(1).is_live(&[left, right, 2, 4]));
    assert!(around(1).is_live(&[left, right, 6, 2]));
    // A 2 is possible in both ends and in no cell between them.
    assert!(!around(1).is_live(&[left | 4, right | 4, 2, 2]));
    // Both digits are possible in one cell, and none in the other.
    assert!(!around(1).is_live(&[left, right, 6, left]));
    assert!(!around(1).is_live(&[left, left, 2, 4]));
}

#[test]
fn the_cells_between_wrap_round_the_line_s_end() {
    let [left, right] = row_blacks(4);
    // The blacks stand in places 3 and 2, the cells between are 0 and 1.
    assert!(around(3).is_live(&[2, 4, left, right]));
    assert!(!around(3).is_live(&[2, 2, left | 4, right | 4]));
    // Now in places 2 and 1, so that the cells between are 3 and 0.
    assert!(around(2).is_live(&[4, left, right, 2]));
    assert!(!around(2).is_live(&[2, left | 4, right | 4, 2]));
}

/// The grid #1#/1##/##1 as a table.
const SETTLED: [u16; 9] = [20, 2, 24, 2, 20, 40, 36, 40, 2];

#[test]
fn each_point_is_asked_of_a_closed_table() {
    let closed = |table: &[u16]| is_closed(3, &[1, 0, 0], &[1, 0, 0], table);
    assert!(closed(&SETTLED));
    let with = |place: usize, entry: u16| {
        let mut table = SETTLED;
        table[place] = entry;
        table
    };
    // A candidate that is alone elsewhere, in the row and in the column.
    assert!(!closed(&with(0, 20 | 2)));
    assert!(!closed(&with(8, 2 | 8)));
    // A left black beside the only 1 of the row.
    assert!(!closed(&with(1, 2 | 4 | 16)));
    // A row black without a column black, and the reverse.
    assert!(!closed(&with(0, 4)));
    assert!(!closed(&with(0, 16)));
    // A bit that is no candidate of the size.
    assert!(!closed(&with(0, 20 | 1)) && !closed(&with(0, 20 | 64)));
    // No arrangement of this row has a 1 between its blacks.
    assert!(!is_closed(3, &[0; 3], &[1, 0, 0], &SETTLED));
    assert!(!is_closed(3, &[1, 0, 0], &[0; 3], &SETTLED));
}

/// Each of these tables breaks one point and keeps the other three.
#[test]
fn no_point_follows_from_the_others() {
    // A left black alone in row 0, column 0, with another one in column 1.
    let zero = [0; 4];
    #[rustfmt::skip]
    let lone = [
        0b010_1100, 0b011_1000, 0b011_0100, 0b000_0010,
        0b110_1110, 0b111_1000, 0b111_1110, 0b011_0100,
        0b110_1110, 0b111_1110, 0b111_1000, 0b111_0000,
        0b100_1110, 0b101_1110, 0b101_1110, 0b101_0100,
    ];
    assert!(!is_closed(4, &zero, &zero, &lone));
    // A 1 has one place left in row 3, beside a 2 and a 3.
    let (rows, columns) = ([0, 0, 0, 0, 6], [5, 0, 1, 0, 0]);
    #[rustfmt::skip]
    let single = [
        0b0000_0010, 0b0101_0000, 0b0110_0000, 0b0000_1100, 0b0000_1100,
        0b0101_0000, 0b1010_0000, 0b0000_0010, 0b0000_1100, 0b0000_1100,
        0b0000_1100, 0b0000_1110, 0b1001_0000, 0b0110_0000, 0b0000_1110,
        0b0000_1100, 0b0000_1110, 0b0000_1100, 0b1001_0000, 0b0110_0000,
        0b1001_0000, 0b0000_1110, 0b0000_1100, 0b0000_1110, 0b1010_0000,
    ];
    assert!(!is_closed(5, &rows, &columns, &single));
    // An upper black without a row black in row 0, column 1.
    let (rows, columns) = ([3, 3, 0, 0], [0; 4]);
    #[rustfmt::skip]
    let blacks = [
        0b010_1000, 0b010_0110, 0b010_0110, 0b011_0000,
        0b100_1000, 0b110_0110, 0b110_0110, 0b101_0000,
        0b000_1110, 0b111_1110, 0b111_1110, 0b001_0110,
        0b000_1110, 0b101_1110, 0b101_1110, 0b001_0110,
    ];
    assert!(!is_closed(4, &rows, &columns, &blacks));
}

/// The four points let more stand: a black alone in its half also orders the blacks of
/// its row and its column.
#[test]
fn a_black_that_is_set_orders_the_blacks_of_both_lines() {
    let (rows, columns) = ([0, 0, 6, 0, 0], [1, 0, 4, 0, 0]);
    #[rustfmt::skip]
    let ordered = [
        0b0101_1100, 0b0111_1110, 0b0111_0100, 0b0110_1110, 0b0000_1110,
        0b0101_1110, 0b1011_1110, 0b0111_1010, 0b1011_1110, 0b0110_1110,
        0b1101_0000, 0b0000_1110, 0b0000_1010, 0b0000_1110, 0b1110_0000,
        0b1001_1110, 0b0111_1110, 0b1011_1010, 0b0111_1110, 0b1010_1110,
        0b1001_1100, 0b1011_1110, 0b1011_0100, 0b1010_1110, 0b0000_1110,
    ];
    assert_eq!(remaining(5, &rows, &columns, &[]), Some(ordered.to_vec()));
    // With lower blacks above the right black of row 2, then with upper ones below.
    let above = [(3, 0b0111_1110), (4, 0b0110_1110), (9, 0b1110_1110)];
    let below = [(19, 0b1110_1110), (23, 0b1011_1110), (24, 0b1010_1110)];
    for more in [above, below] {
        let mut table = ordered;
        more.iter().for_each(|&(place, entry)| table[place] = entry);
        assert!(is_closed(5, &rows, &columns, &table));
    }
}

fn holds(size: usize, rows: &[u8], columns: &[u8], marks: &[u16]) -> bool {
    let grids = every_grid(size, rows, columns, marks).expect("a listed size");
    let is_kept = |table: &[u16]| {
        is_filled(table)
            && is_closed(size, rows, columns, table)
            && marks.iter().all(|&mark| shows_mark(size, table, mark))
            && grids.iter().all(|grid| has_grid(size, table, grid))
    };
    let table = remaining(size, rows, columns, marks);
    table.map_or(grids.is_empty(), |table| is_kept(&table))
}

fn marks_of_size(size: usize) -> Vec<u16> {
    let accepted = |&word: &u16| marks_refusal(size, &[word]).is_none();
    (0..=u16::MAX).filter(accepted).collect()
}

#[test]
fn tables_of_sizes_2_and_3_keep_every_grid() {
    for (size, alphabet) in [(2, &[0][..]), (3, &[0, 1])] {
        for targets in inputs::all_lists(2 * size, alphabet) {
            let (rows, columns) = targets.split_at(size);
            assert!(holds(size, rows, columns, &[]), "{targets:?}");
            for mark in marks_of_size(size) {
                assert!(holds(size, rows, columns, &[mark]), "{targets:?} {mark:x}");
            }
        }
    }
}

#[test]
fn tables_of_size_4_keep_every_grid() {
    let mut rng = SeededRng::new(8);
    let marks = marks_of_size(4);
    for targets in inputs::all_lists(8, &[0, 1, 2, 3]).step_by(7) {
        let (rows, columns) = targets.split_at(4);
        let mark = marks[rng.below(marks.len())];
        assert!(holds(4, rows, columns, &[]), "{targets:?}");
        assert!(holds(4, rows, columns, &[mark]), "{targets:?} {mark:x}");
    }
}

#[test]
fn drawn_tables_keep_their_grid() {
    let mut rng = SeededRng::new(9);
    for _ in 0..600 {
        let size = inputs::any_size(&mut rng);
        let asked = inputs::of_a_pinned_grid(&mut rng, size);
        let (rows, columns) = (&asked.rows, &asked.columns);
        let marks = marks_of(&asked.marks);
        let table = remaining(size, rows, columns, &marks).expect("a grid is left");
        let grid = first_grid(size, rows, columns, &marks).expect("a grid is left");
        assert!(is_filled(&table) && is_closed(size, rows, columns, &table));
        assert!(has_grid(size, &table, &grid));
        assert!(satisfies(size, rows, columns, &marks, &grid));
    }
}

/// Where only the end cells kept arrangements alive, by the request's own examples.
#[test]
fn the_examples_of_the_request() {
    assert_eq!(remaining(4, &[1, 1, 0, 0], &[0; 4], &[]), None);
    let (rows, columns) = ([2, 0, 4, 4, 0], [3, 1, 6, 3, 0]);
    let grids = every_grid(5, &rows, &columns, &[]).expect("a listed size");
    let table = remaining(5, &rows, &columns, &[]).expect("a grid is left");
    assert!(!grids.is_empty() && holds(5, &rows, &columns, &[]));
    assert_eq!(table[2 * 5 + 3] & 2, 0);
    // Without a grid, and still a table.
    let marked = remaining(4, &[1, 2, 0, 0], &[1, 0, 0, 0], &[0x9090]).expect("a table");
    assert!(holds(4, &[1, 2, 0, 0], &[1, 0, 0, 0], &[0x9090]));
    assert_eq!(marked[2 * 4 + 1] & 2, 0);
}
