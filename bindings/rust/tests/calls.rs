//! The wrappers against the linked library.

use doppelblock::{
    BLACK as B, Candidates, LEFT_BLACK, LOWER_BLACK, Mark, RIGHT_BLACK, Refusal, Sheet,
    UPPER_BLACK, Unit, Verdict, candidates, count, count_into, mark_sheet, solve, target_sums,
};

#[path = "../examples/puzzle.rs"]
mod example;

const GOOD: [u8; 9] = [B, 1, B, 1, B, B, B, B, 1];

#[test]
fn the_example_runs() {
    example::main().expect("the example is refused nowhere");
}

#[test]
fn sums_are_written() {
    let (mut rows, mut columns) = ([9; 3], [9; 3]);
    assert_eq!(target_sums(3, &GOOD, &mut rows, &mut columns), Ok(()));
    assert_eq!((rows, columns), ([1, 0, 0], [1, 0, 0]));
}

#[test]
fn refusals_write_nothing() {
    let refused = |size, cells: &[u8], length| {
        let (mut rows, mut columns) = (vec![9; length], vec![9; length]);
        let refusal = target_sums(size, cells, &mut rows, &mut columns).unwrap_err();
        assert_eq!((rows, columns), (vec![9; length], vec![9; length]));
        refusal
    };
    assert_eq!(refused(1, &[], 0), Refusal::Size);
    assert_eq!(refused(3, &[], 0), Refusal::CellsLength);
    assert_eq!(refused(3, &GOOD, 0), Refusal::TargetLengths);
    assert_eq!(refused(3, &[1; 9], 3), Refusal::Blacks);
    assert_eq!(
        refused(3, &[B, 0, B, 1, 1, 1, 1, 1, 1], 3),
        Refusal::EmptyCell
    );
    let wide = [B, 200, 100, B, 1, 1, 1, 1, 1, 1, 1, 1, 1, 1, 1, 1];
    assert_eq!(refused(4, &wide, 4), Refusal::Sum);
}

#[test]
fn sheets_are_marked() {
    let marked = |rows: &[u8], columns: &[u8], cells: &[u8]| mark_sheet(3, rows, columns, cells);
    assert_eq!(marked(&[1, 0, 0], &[1, 0, 0], &GOOD), Ok(Sheet::Right));
    assert_eq!(marked(&[1, 0, 0], &[0, 0, 1], &GOOD), Ok(Sheet::Wrong));
    assert_eq!(marked(&[1, 0, 0], &[1, 0, 0], &[0; 9]), Ok(Sheet::Wrong));
    assert_eq!(
        marked(&[1, 0], &[1, 0, 0], &GOOD),
        Err(Refusal::TargetLengths)
    );
    assert_eq!(marked(&[2, 0, 0], &[1, 0, 0], &GOOD), Err(Refusal::Target));
    assert_eq!(
        marked(&[1, 0, 0], &[1, 0, 0], &[]),
        Err(Refusal::CellsLength)
    );
}

/// The key of a puzzle of size 4, and two sheets with the same sums: a digit twice
/// in a row, and a digit twice in columns only.
#[test]
fn a_repeated_digit_is_wrong() {
    let (rows, columns) = ([0, 2, 0, 2], [0, 0, 3, 0]);
    let marked = |cells: &[u8]| mark_sheet(4, &rows, &columns, cells);
    let key = [2, 1, B, B, 1, B, 2, B, B, B, 1, 2, B, 2, B, 1];
    let in_a_row = [1, 2, B, B, 2, B, 2, B, B, B, 1, 2, B, 2, B, 1];
    let in_columns = [1, 2, B, B, 1, B, 2, B, B, B, 1, 2, B, 2, B, 1];

    let mut solved = [9; 16];
    let verdict = solve(4, &rows, &columns, &[], &mut solved);
    assert_eq!(verdict, Ok(Verdict::Unique));
    assert_eq!(solved, key);
    assert_eq!(marked(&key), Ok(Sheet::Right));
    for cells in [in_a_row, in_columns] {
        let (mut row_sums, mut column_sums) = ([9; 4], [9; 4]);
        target_sums(4, &cells, &mut row_sums, &mut column_sums).expect("it has sums");
        assert_eq!((row_sums, column_sums), (rows, columns));
        assert_eq!(marked(&cells), Ok(Sheet::Wrong));
    }
}

/// The puzzle of the requirements with two grids.
const TWO: ([u8; 3], [u8; 3]) = ([0, 1, 0], [0, 1, 0]);

fn count_two(marks: &[u8], cap: u64) -> Result<u64, Refusal> {
    count(3, &TWO.0, &TWO.1, marks, cap)
}

#[test]
fn a_count_stops_at_its_cap() {
    for (cap, expected) in [(0, 0), (1, 1), (2, 2), (3, 2), (u64::MAX, 2)] {
        assert_eq!(count_two(&[], cap), Ok(expected));
    }
    assert_eq!(count(3, &[1, 0, 0], &[1, 0, 0], &[], 2), Ok(1));
    assert_eq!(count(3, &[1, 1, 0], &[0, 1, 0], &[], 2), Ok(0));
    assert_eq!(count(2, &[0; 2], &[0; 2], &[], 2), Ok(1));
    assert_eq!(count(4, &[3; 4], &[0; 4], &[], 2), Ok(0));
}

#[test]
fn marks_narrow_a_count() {
    for (marks, expected) in [
        (&[0x00, 0x08][..], 1),
        (&[0x80, 0x08], 1),
        (&[0x00, 0x08, 0x00, 0x08], 1),
        (&[0x00, 0x08, 0x80, 0x08], 0),
        (&[0x00, 0x08, 0x01, 0x08], 0),
    ] {
        assert_eq!(count_two(marks, 2), Ok(expected), "marks {marks:02x?}");
    }
}

#[test]
fn a_refused_count_is_not_written() {
    let refused = |size, rows: &[u8], marks: &[u8]| {
        let mut number = 77;
        let refusal = count_into(size, rows, &[0, 1, 0], marks, 5, &mut number).unwrap_err();
        assert_eq!(number, 77);
        refusal
    };
    assert_eq!(refused(10, &[9], &[7]), Refusal::Size);
    assert_eq!(refused(3, &[9], &[7]), Refusal::TargetLengths);
    assert_eq!(refused(3, &[0, 2, 0], &[7]), Refusal::Target);
    assert_eq!(refused(3, &[0; 3], &[0x7F, 0xF9]), Refusal::MarkSpare);
    assert_eq!(refused(3, &[0; 3], &[0x7F, 0xF8]), Refusal::MarkPlace);
    assert_eq!(refused(3, &[0; 3], &[0x00, 0x10]), Refusal::MarkValue);
    // Half a mark comes in its turn, after the value that size 3 does not have.
    assert_eq!(refused(3, &[0; 3], &[0x00, 0x08, 0x00]), Refusal::MarkSpare);
    assert_eq!(refused(3, &[0; 3], &[0x00, 0x10, 0x00]), Refusal::MarkValue);
}

#[test]
fn the_first_grid_is_written() {
    let solved = |rows: &[u8], columns: &[u8], marks: &[Mark]| {
        let mut cells = [9; 9];
        let verdict = solve(3, rows, columns, &Mark::list(marks), &mut cells);
        (verdict.expect("nothing is refused"), cells)
    };
    assert_eq!(solved(&[1, 0, 0], &[1, 0, 0], &[]), (Verdict::Unique, GOOD));
    assert_eq!(
        solved(&TWO.0, &TWO.1, &[]),
        (Verdict::Multiple, [1, B, B, B, 1, B, B, B, 1])
    );
    assert_eq!(
        solved(&TWO.0, &TWO.1, &[Mark::reject(2, 2, 1)]),
        (Verdict::Unique, [B, B, 1, B, 1, B, 1, B, B])
    );
    assert_eq!(
        solved(&[1, 1, 0], &[0, 1, 0], &[]),
        (Verdict::Unsolvable, [9; 9])
    );
}

#[test]
fn buffers_of_another_length_are_refused_last() {
    let refused = |rows: &[u8], marks: &[u8]| {
        let (mut cells, mut table) = ([9; 10], [9; 17]);
        let refusal = solve(3, rows, &[0; 3], marks, &mut cells).unwrap_err();
        let same = candidates(3, rows, &[0; 3], marks, &mut table).unwrap_err();
        assert_eq!((cells, table, same), ([9; 10], [9; 17], refusal));
        refusal
    };
    assert_eq!(refused(&[0; 2], &[]), Refusal::TargetLengths);
    assert_eq!(refused(&[0; 3], &[0]), Refusal::MarkSpare);
    assert_eq!(refused(&[0; 3], &[0x00, 0x08]), Refusal::CellsLength);
}

#[test]
fn candidates_are_written_or_contradicted() {
    let mut table = [9; 18];
    let written = candidates(3, &[1, 0, 0], &[1, 0, 0], &[], &mut table);
    assert_eq!(written, Ok(Candidates::Written));
    // Left and right row black are the bits 2 and 3, upper and lower column
    // black the bits 4 and 5.
    let entries: Vec<u8> = table.chunks_exact(2).map(|entry| entry[1]).collect();
    assert_eq!(entries, [20, 2, 24, 2, 20, 40, 36, 40, 2]);
    assert!(table.chunks_exact(2).all(|entry| entry[0] == 0));

    let before = table;
    let marks = Mark::list(&[Mark::take(0, 0, 1)]);
    let contradicted = candidates(3, &[1, 0, 0], &[1, 0, 0], &marks, &mut table);
    assert_eq!(contradicted, Ok(Candidates::Contradicted));
    assert_eq!(table, before);
}

#[test]
fn blacks_use_the_high_byte_at_size_9() {
    let mut table = [0; 162];
    let written = candidates(9, &[12; 9], &[12; 9], &[], &mut table);
    assert_eq!(written, Ok(Candidates::Written));
    let entry = |place: usize| u16::from_be_bytes([table[2 * place], table[2 * place + 1]]);
    // The first cell of a row can be its left black (bit 8), not its right one.
    assert_eq!(entry(0) >> 8 & 3, 1);
    assert_eq!(entry(80) >> 8 & 3, 2);
}

#[test]
fn marks_are_packed_as_document_01_says() {
    let bytes = |mark: Mark| u16::from_be_bytes(mark.to_bytes());
    assert_eq!(bytes(Mark::take(0, 0, 1)), 0x0008);
    assert_eq!(bytes(Mark::reject(0, 0, 1)), 0x8008);
    assert_eq!(bytes(Mark::take(0, 2, 1)), 0x0108);
    assert_eq!(bytes(Mark::take(1, 1, LEFT_BLACK)), 0x08C0);
    assert_eq!(bytes(Mark::reject(15, 15, 15)), 0xFFF8);
    assert_eq!([RIGHT_BLACK, UPPER_BLACK, LOWER_BLACK], [9, 10, 11]);
}

#[test]
#[should_panic(expected = "four bits each")]
fn a_mark_has_no_room_for_row_16() {
    Mark::take(16, 0, 1);
}

#[test]
fn numbers_and_refusals_belong_together() {
    for unit in [Unit::Hall, Unit::Classroom] {
        for refusal in Refusal::ALL {
            assert_eq!(Refusal::from_number(refusal.number(), unit), Some(refusal));
            assert!(
                refusal
                    .to_string()
                    .starts_with(&format!("refused ({})", refusal.number()))
            );
        }
        assert_eq!(Refusal::from_number(0, unit), None);
        assert_eq!(Refusal::from_number(100, unit), None);
    }
}

#[test]
fn limits_belong_to_their_unit() {
    let limits = |unit: Unit| (unit.size_limit(), unit.list_limit());
    assert_eq!(limits(Unit::Hall), (9, None));
    assert_eq!(limits(Unit::Classroom), (6, Some(40)));

    let of_limits = |unit| [18, 19].map(|number| Refusal::from_number(number, unit));
    let (size, list) = (Refusal::SizeLimit(6), Refusal::ListLimit(40));
    assert_eq!(of_limits(Unit::Hall), [None, None]);
    assert_eq!(of_limits(Unit::Classroom), [Some(size), Some(list)]);
    assert_eq!([size, list].map(Refusal::number), [18, 19]);
}

#[test]
fn texts_name_the_limit() {
    assert_eq!(
        Refusal::SizeLimit(6).to_string(),
        "refused (18): the size is above the limit of this unit, which is 6"
    );
    assert_eq!(
        Refusal::ListLimit(40).to_string(),
        "refused (19): the list has more marks than the limit of this unit, which is 40"
    );
}

/// What the calls write into.
#[derive(Debug, PartialEq)]
struct Buffers {
    rows: Vec<u8>,
    columns: Vec<u8>,
    number: u64,
    cells: Vec<u8>,
    table: Vec<u8>,
}

impl Buffers {
    /// Filled with what is written nowhere below; 99 is above every target.
    fn new(size: usize) -> Buffers {
        Buffers {
            rows: vec![99; size],
            columns: vec![99; size],
            number: 77,
            cells: vec![99; size * size],
            table: vec![99; 2 * size * size],
        }
    }
}

/// What the calls answer.
#[derive(Debug, PartialEq)]
struct Answers {
    sums: Result<(), Refusal>,
    sheet: Result<Sheet, Refusal>,
    count: Result<(), Refusal>,
    solve: Result<Verdict, Refusal>,
    candidates: Result<Candidates, Refusal>,
}

impl Answers {
    /// Each call once: the sums of the grid, then the puzzle of these sums.
    fn of(unit: Unit, size: usize, grid: &[u8], marks: &[u8], left: &mut Buffers) -> Answers {
        let sums = unit.target_sums(size, grid, &mut left.rows, &mut left.columns);
        let (rows, columns) = (&left.rows, &left.columns);
        Answers {
            sums,
            sheet: unit.mark_sheet(size, rows, columns, grid),
            count: unit.count_into(size, rows, columns, marks, 5, &mut left.number),
            solve: unit.solve(size, rows, columns, marks, &mut left.cells),
            candidates: unit.candidates(size, rows, columns, marks, &mut left.table),
        }
    }

    /// The refusal of each call, if it refused.
    fn refusals(&self) -> [Option<Refusal>; 5] {
        [
            self.sums.err(),
            self.sheet.err(),
            self.count.err(),
            self.solve.err(),
            self.candidates.err(),
        ]
    }
}

/// A grid that keeps the rules: each row is the row above, shifted by one cell.
fn shifted(size: usize) -> Vec<u8> {
    let value = |place: usize| (place / size + place % size) % size + 1;
    let cell = |value: usize| if value + 2 > size { B } else { value as u8 };
    (0..size * size).map(|place| cell(value(place))).collect()
}

#[test]
fn both_units_give_the_same_within_the_limits() {
    let marks = [
        vec![],
        vec![0],
        vec![0x7F, 0xF8],
        Mark::list(&[Mark::take(0, 0, 7)]),
        Mark::list(&[Mark::take(0, 0, LEFT_BLACK)]),
        Mark::list(&[Mark::reject(1, 1, UPPER_BLACK); 40]),
    ];
    for size in [0, 1, 2, 3, 4, 5, 6, 10] {
        for grid in [shifted(size), vec![1; size * size], vec![]] {
            for marks in &marks {
                let asked = |unit| {
                    let mut left = Buffers::new(size);
                    (Answers::of(unit, size, &grid, marks, &mut left), left)
                };
                assert_eq!(asked(Unit::Hall), asked(Unit::Classroom));
            }
        }
    }
}

#[test]
fn a_classroom_takes_sizes_up_to_6() {
    for size in 0..=11 {
        let refusal = match size {
            2..=6 => None,
            7..=9 => Some(Refusal::SizeLimit(6)),
            _ => Some(Refusal::Size),
        };
        let mut left = Buffers::new(size);
        let answers = Answers::of(Unit::Classroom, size, &shifted(size), &[], &mut left);
        assert_eq!(answers.refusals(), [refusal; 5], "size {size}");
        assert_eq!(left == Buffers::new(size), refusal.is_some(), "size {size}");
    }
}

#[test]
fn the_hall_takes_sizes_up_to_9() {
    for size in 7..=9 {
        let (grid, mut rows, mut columns) = (shifted(size), vec![99; size], vec![99; size]);
        assert_eq!(target_sums(size, &grid, &mut rows, &mut columns), Ok(()));
        assert_eq!(mark_sheet(size, &rows, &columns, &grid), Ok(Sheet::Right));
    }
}

/// Half a mark at the end of a list counts as a mark.
#[test]
fn a_classroom_takes_lists_of_up_to_40_marks() {
    let marks = Mark::list(&[Mark::reject(0, 0, 1); 41]);
    let asked = |unit, bytes: usize| {
        let mut left = Buffers::new(3);
        let answers = Answers::of(unit, 3, &GOOD, &marks[..bytes], &mut left);
        (answers.refusals(), left)
    };
    for (bytes, hall, classroom) in [
        (80, None, None),
        (81, Some(Refusal::MarkSpare), Some(Refusal::ListLimit(40))),
        (82, None, Some(Refusal::ListLimit(40))),
    ] {
        for (unit, refusal) in [(Unit::Hall, hall), (Unit::Classroom, classroom)] {
            let (refusals, left) = asked(unit, bytes);
            assert_eq!(refusals, [None, None, refusal, refusal, refusal]);
            // Only the sums are written where the list is refused.
            let sums = Buffers {
                rows: vec![1, 0, 0],
                columns: vec![1, 0, 0],
                ..Buffers::new(3)
            };
            assert_eq!(left == sums, refusal.is_some(), "{unit:?}, {bytes} bytes");
        }
    }
}

#[test]
fn the_size_limit_is_asked_after_1_and_before_2() {
    for (size, sums, puzzle) in [
        (10, Refusal::Size, Refusal::Size),
        (7, Refusal::SizeLimit(6), Refusal::SizeLimit(6)),
        (6, Refusal::CellsLength, Refusal::TargetLengths),
    ] {
        // Lengths, targets and marks are faulty for each of these sizes.
        let mut left = Buffers::new(1);
        let answers = Answers::of(Unit::Classroom, size, &[], &[0xFF; 82], &mut left);
        let expected = [sums, puzzle, puzzle, puzzle, puzzle].map(Some);
        assert_eq!(answers.refusals(), expected, "size {size}");
        assert_eq!(left, Buffers::new(1));
    }
}

#[test]
fn the_list_limit_is_asked_after_3_and_before_any_mark() {
    // Each mark is faulty, and both buffers have a wrong length.
    let refused = |rows: &[u8], bytes: usize| {
        let (unit, columns, marks) = (Unit::Classroom, [0; 3], vec![0xFF; bytes]);
        let (mut number, mut cells, mut table) = (77, [9; 10], [9; 17]);
        let counted = unit.count_into(3, rows, &columns, &marks, 5, &mut number);
        let solved = unit.solve(3, rows, &columns, &marks, &mut cells);
        let left = unit.candidates(3, rows, &columns, &marks, &mut table);
        assert_eq!((number, cells, table), (77, [9; 10], [9; 17]));
        assert_eq!((counted.err(), solved.err()), (left.err(), left.err()));
        left.unwrap_err()
    };
    assert_eq!(refused(&[0, 2, 0], 82), Refusal::Target);
    assert_eq!(refused(&[0; 3], 82), Refusal::ListLimit(40));
    assert_eq!(refused(&[0; 3], 81), Refusal::ListLimit(40));
    assert_eq!(refused(&[0; 3], 80), Refusal::MarkSpare);
}
