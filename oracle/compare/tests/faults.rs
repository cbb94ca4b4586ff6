//! The comparison finds engines with a fault, and shows a small input.

use std::time::Duration;

use compare::batch::{self, Batch};
use compare::candidates::Candidates;
use compare::count::Count;
use compare::engine::{Engine, Question};
use compare::harness::{Call, jobs_of};
use compare::marking::MarkSheet;
use compare::report;
use compare::solve::Solve;
use compare::sums::TargetSums;
use reference::{Limit, Solved};
use rules::Unit;

type Sums = fn(Unit, usize, &[u8], &mut [u8], &mut [u8]) -> u8;
type Marking = fn(Unit, usize, &[u8], &[u8], &[u8]) -> u8;
type Counting = fn(Unit, Question, u64, &mut u64) -> u8;
type IntoBytes = fn(Unit, Question, &mut [u8]) -> u8;

/// An engine made of functions.
struct Faulty {
    sums: Sums,
    marking: Marking,
    count: Counting,
    solve: IntoBytes,
    candidates: IntoBytes,
}

const GOOD: Faulty = Faulty {
    sums: good_sums,
    marking: good_marking,
    count: good_count,
    solve: good_solve,
    candidates: good_candidates,
};

impl Engine for Faulty {
    fn target_sums(
        &self,
        unit: Unit,
        size: usize,
        cells: &[u8],
        rows: &mut [u8],
        columns: &mut [u8],
    ) -> u8 {
        (self.sums)(unit, size, cells, rows, columns)
    }

    fn mark_sheet(&self, unit: Unit, size: usize, rows: &[u8], columns: &[u8], cells: &[u8]) -> u8 {
        (self.marking)(unit, size, rows, columns, cells)
    }

    fn count(&self, unit: Unit, asked: Question, cap: u64, count: &mut u64) -> u8 {
        (self.count)(unit, asked, cap, count)
    }

    fn solve(&self, unit: Unit, asked: Question, cells: &mut [u8]) -> u8 {
        (self.solve)(unit, asked, cells)
    }

    fn candidates(&self, unit: Unit, asked: Question, table: &mut [u8]) -> u8 {
        (self.candidates)(unit, asked, table)
    }
}

fn good_sums(unit: Unit, size: usize, cells: &[u8], rows: &mut [u8], columns: &mut [u8]) -> u8 {
    match rules::target_sums(unit, size, cells, rows.len(), columns.len()) {
        Ok((row_sums, column_sums)) => {
            rows.copy_from_slice(&row_sums);
            columns.copy_from_slice(&column_sums);
            0
        }
        Err(number) => number,
    }
}

fn good_marking(unit: Unit, size: usize, rows: &[u8], columns: &[u8], cells: &[u8]) -> u8 {
    match rules::mark_sheet(unit, size, rows, columns, cells) {
        Ok(right) => 100 + u8::from(right),
        Err(number) => number,
    }
}

/// The refusal that every searching call has before it looks at its buffer.
fn refusal(unit: Unit, asked: Question) -> Option<u8> {
    rules::count_refusal(unit, asked.size, asked.rows, asked.columns, asked.marks)
}

/// As `refusal`, and for a buffer of another length.
fn refusal_with(unit: Unit, asked: Question, length: usize, exact: usize) -> Option<u8> {
    refusal(unit, asked).or((length != exact).then_some(7))
}

/// By the plain search where the Rust's is long.
fn good_count(unit: Unit, asked: Question, cap: u64, count: &mut u64) -> u8 {
    if let Some(number) = refusal(unit, asked) {
        return number;
    }
    let limit = Limit::Nodes(cap.saturating_mul(2).saturating_add(200));
    let (marks, cap) = (rules::marks_of(asked.marks), cap as usize);
    let (size, rows, columns) = (asked.size, asked.rows, asked.columns);
    let by_rules = || rules::first_grids(size, rows, columns, &marks, cap).len();
    let by_rust = reference::count_within(limit, size, rows, columns, &marks, cap);
    *count = by_rust.unwrap_or_else(by_rules) as u64;
    0
}

fn good_solve(unit: Unit, asked: Question, cells: &mut [u8]) -> u8 {
    if let Some(number) = refusal_with(unit, asked, cells.len(), asked.size.wrapping_pow(2)) {
        return number;
    }
    let (number, grid) = match solved_by_the_rust(asked) {
        Solved::Unsolvable => return 100,
        Solved::Unique(grid) => (101, grid),
        Solved::Multiple(_) => (102, first_grid(asked)),
    };
    cells.copy_from_slice(&grid);
    number
}

/// The comparison never asks for a search past its limit.
fn solved_by_the_rust(asked: Question) -> Solved {
    let marks = rules::marks_of(asked.marks);
    reference::solve(asked.size, asked.rows, asked.columns, &marks)
}

fn first_grid(asked: Question) -> Vec<u8> {
    let marks = rules::marks_of(asked.marks);
    let first = rules::first_grid(asked.size, asked.rows, asked.columns, &marks);
    first.expect("several grids")
}

fn good_candidates(unit: Unit, asked: Question, table: &mut [u8]) -> u8 {
    let exact = asked.size.wrapping_pow(2).wrapping_mul(2);
    if let Some(number) = refusal_with(unit, asked, table.len(), exact) {
        return number;
    }
    let marks = rules::marks_of(asked.marks);
    let remaining = rules::remaining(asked.size, asked.rows, asked.columns, &marks);
    written(remaining, table)
}

fn written(entries: Option<Vec<u16>>, table: &mut [u8]) -> u8 {
    match entries {
        Some(entries) => {
            table.copy_from_slice(&rules::word_bytes(&entries));
            0
        }
        None => 100,
    }
}

/// Every grid of a question that is not refused, at the sizes that are listed.
fn every_grid(asked: Question) -> Option<Vec<&'static [u8]>> {
    let marks = rules::marks_of(asked.marks);
    rules::every_grid(asked.size, asked.rows, asked.columns, &marks)
}

/// The smallest input of this call that shows the fault.
fn found<C: Call + 'static>(engine: &Faulty) -> Option<String> {
    let found = report::run(engine, &jobs_of::<C>(1), Duration::ZERO).err()?;
    Some(found.failure.input)
}

fn found_in_sums(sums: Sums) -> Option<String> {
    found::<TargetSums>(&Faulty { sums, ..GOOD })
}

fn found_in_marking(marking: Marking) -> Option<String> {
    found::<MarkSheet>(&Faulty { marking, ..GOOD })
}

fn found_in_count(count: Counting) -> String {
    found::<Count>(&Faulty { count, ..GOOD }).expect("the fault is found")
}

fn found_in_batch(count: Counting) -> String {
    found::<Batch>(&Faulty { count, ..GOOD }).expect("the fault is found")
}

fn found_in_solve(solve: IntoBytes) -> String {
    found::<Solve>(&Faulty { solve, ..GOOD }).expect("the fault is found")
}

fn found_in_candidates(candidates: IntoBytes) -> String {
    found::<Candidates>(&Faulty { candidates, ..GOOD }).expect("the fault is found")
}

fn is_long(family: &str) -> bool {
    family.starts_with("size 3") || family.starts_with("size 4") || family == batch::FAMILY
}

/// Without the long lists, which the linked engine goes through in full. Where there are
/// several grids, the Rust shows another one than the first now and then.
#[test]
fn an_engine_by_the_rules_passes() {
    let mut jobs = compare::jobs(1);
    jobs.retain(|job| !is_long(job.family()));
    let lines = report::run(&GOOD, &jobs, Duration::ZERO);
    let lines = lines.ok().expect("each answer is right");
    let counted = |label| {
        lines
            .iter()
            .filter_map(move |line| line.tally.answers.get(label))
    };
    let others: u64 = counted("another grid than the Rust's").sum();
    assert!(others > 0 && others < counted("multiple").sum());
}

#[test]
fn a_refusal_that_writes_is_found() {
    let input = found_in_sums(|unit, size, cells, rows, columns| {
        let number = good_sums(unit, size, cells, rows, columns);
        if number == 10 {
            columns[0] = 0;
        }
        number
    });
    assert!(input.is_some_and(|input| input.starts_with("size 4")));
}

#[test]
fn swapped_sums_are_found() {
    let input = found_in_sums(|unit, size, cells, rows, columns| {
        good_sums(unit, size, cells, columns, rows)
    });
    assert!(input.is_some());
}

#[test]
fn overflow_looked_for_before_the_empty_cell_is_found() {
    let input = found_in_sums(|unit, size, cells, rows, columns| {
        match good_sums(unit, size, cells, rows, columns) {
            9 => reference::target_sums(size, cells).unwrap_err(),
            number => number,
        }
    });
    // Row 0 needs a black, two numbers, an empty cell and a black.
    assert!(input.is_some_and(|input| input.starts_with("size 5")));
}

#[test]
fn lengths_checked_in_another_order_are_found() {
    let input = found_in_sums(|unit, size, cells, rows, columns| {
        match good_sums(unit, size, cells, rows, columns) {
            7 if rows.len() != size => 2,
            number => number,
        }
    });
    assert!(input.is_some());
}

#[test]
fn a_size_cut_to_eight_bits_is_found() {
    let input = found_in_sums(|unit, size, cells, rows, columns| {
        good_sums(unit, size % 256, cells, rows, columns)
    });
    assert!(input.is_some());
}

#[test]
fn a_sum_of_255_that_is_refused_is_found() {
    let input = found_in_sums(|unit, size, cells, rows, columns| {
        match good_sums(unit, size, cells, rows, columns) {
            0 if rows.contains(&255) => 10,
            number => number,
        }
    });
    assert!(input.is_some());
}

/// Two blacks in each line and the sums: what marking asked before.
#[test]
fn a_repeated_digit_that_gets_full_marks_is_found() {
    let input = found_in_marking(|unit, size, rows, columns, cells| {
        match good_marking(unit, size, rows, columns, cells) {
            100 => {
                let sums = rules::target_sums(unit, size, cells, size, size);
                100 + u8::from(sums == Ok((rows.to_vec(), columns.to_vec())))
            }
            number => number,
        }
    });
    assert!(input.is_some_and(|input| input.starts_with("size 3")));
}

#[test]
fn digits_looked_at_in_the_rows_only_are_found() {
    let input = found_in_marking(|unit, size, rows, columns, cells| {
        match good_marking(unit, size, rows, columns, cells) {
            100 => {
                let sums = rules::target_sums(unit, size, cells, size, size);
                let in_row = |row: &[u8], digit: u8| row.contains(&digit);
                let digits = 1..=size as u8 - 2;
                let rows_are_right = cells
                    .chunks_exact(size)
                    .all(|row| digits.clone().all(|digit| in_row(row, digit)));
                let right = rows_are_right && sums == Ok((rows.to_vec(), columns.to_vec()));
                100 + u8::from(right)
            }
            number => number,
        }
    });
    assert!(input.is_some());
}

#[test]
fn a_sheet_whose_columns_are_not_looked_at_is_found() {
    let input = found_in_marking(|unit, size, rows, columns, cells| {
        match good_marking(unit, size, rows, columns, cells) {
            100 => match rules::target_sums(unit, size, cells, size, size) {
                Ok((sums, _)) => 100 + u8::from(sums == rows),
                Err(_) => 100,
            },
            number => number,
        }
    });
    assert!(input.is_some_and(|input| input.starts_with("size 3")));
}

#[test]
fn a_sheet_without_sums_that_is_right_is_found() {
    let input = found_in_marking(|unit, size, rows, columns, cells| {
        match good_marking(unit, size, rows, columns, cells) {
            100 if rules::target_sums(unit, size, cells, size, size).is_err() => 101,
            number => number,
        }
    });
    assert!(input.is_some_and(|input| input.starts_with("size 2")));
}

#[test]
fn a_target_one_too_large_is_found() {
    let input = found_in_marking(|unit, size, rows, columns, cells| {
        match good_marking(unit, size, rows, columns, cells) {
            3 if size == 9 && rows.iter().chain(columns).all(|&target| target <= 29) => 100,
            number => number,
        }
    });
    assert!(input.is_some_and(|input| input.starts_with("size 9")));
}

/// How the smallest input begins: the only puzzle of size 2.
const SMALLEST: &str = "size 2, rows [0, 0], columns [0, 0], marks [";

fn is_smallest(input: &str, rest: &str) {
    assert_eq!(input, format!("{SMALLEST}{rest}"));
}

#[test]
fn a_count_one_too_high_is_found() {
    let input = found_in_count(|unit, asked, cap, count| {
        let number = good_count(unit, asked, cap, count);
        *count += u64::from(number == 0);
        number
    });
    is_smallest(&input, "], cap 0");
}

#[test]
fn a_cap_that_is_ignored_is_found() {
    let input =
        found_in_count(|unit, asked, cap, count| good_count(unit, asked, cap.max(9), count));
    is_smallest(&input, "], cap 0");
}

#[test]
fn a_second_branch_with_the_full_cap_is_found() {
    let input = found_in_count(|unit, asked, cap, count| {
        let more = if cap == 1 { 2 } else { cap };
        good_count(unit, asked, more, count)
    });
    assert!(input.starts_with("size 3") && input.ends_with("cap 1"));
}

#[test]
fn a_count_that_is_the_cap_is_found() {
    let input = found_in_count(|unit, asked, cap, count| {
        let number = good_count(unit, asked, cap, count);
        if number == 0 && *count > 0 {
            *count = cap;
        }
        number
    });
    is_smallest(&input, "], cap 2");
}

#[test]
fn a_count_by_the_first_mark_alone_is_found() {
    let input = found_in_count(|unit, asked, cap, count| {
        let marks = match refusal(unit, asked) {
            None => &asked.marks[..asked.marks.len().min(2)],
            Some(_) => asked.marks,
        };
        good_count(unit, Question { marks, ..asked }, cap, count)
    });
    // Two marks and no more.
    let marks = input.strip_prefix(SMALLEST).expect("size 2");
    assert_eq!(marks.find(']'), Some("00 40 80 40".len()));
}

#[test]
fn a_count_written_on_a_refusal_is_found() {
    let input = found_in_count(|unit, asked, cap, count| {
        let number = good_count(unit, asked, cap, count);
        if number == 6 {
            *count = 0;
        }
        number
    });
    is_smallest(&input, "00 00], cap 0");
}

#[test]
fn half_a_mark_that_is_overlooked_is_found() {
    let input = found_in_count(|unit, asked, cap, count| {
        let marks = &asked.marks[..asked.marks.len() / 2 * 2];
        good_count(unit, Question { marks, ..asked }, cap, count)
    });
    is_smallest(&input, "00], cap 0");
}

#[test]
fn a_mark_looked_at_before_the_targets_is_found() {
    let input =
        found_in_count(
            |unit, asked, cap, count| match good_count(unit, asked, cap, count) {
                3 => rules::marks_refusal(asked.size, &rules::marks_of(asked.marks)).unwrap_or(3),
                number => number,
            },
        );
    assert!(input.starts_with("size 2"));
}

/// The count at size 8 without a look, where nothing is refused.
fn count_of_size_8(grids: u64, unit: Unit, asked: Question, cap: u64, count: &mut u64) -> u8 {
    if asked.size != 8 || refusal(unit, asked).is_some() {
        return good_count(unit, asked, cap, count);
    }
    *count = grids;
    0
}

#[test]
fn one_grid_too_many_of_a_kept_puzzle_is_found() {
    let input =
        found_in_batch(|unit, asked, cap, count| count_of_size_8(cap + 1, unit, asked, cap, count));
    assert!(input.starts_with("size 8") && input.ends_with("cap 1"));
}

#[test]
fn a_second_grid_of_a_kept_puzzle_that_is_overlooked_is_found() {
    let input =
        found_in_batch(|unit, asked, cap, count| count_of_size_8(1, unit, asked, cap, count));
    assert!(input.starts_with("size 8") && input.ends_with("cap 2"));
}

/// A difference at smaller sizes as well is shown at the smallest.
#[test]
fn a_kept_puzzle_leads_to_a_smaller_one() {
    let input = found_in_batch(|unit, asked, cap, count| {
        let number = count_of_size_8(cap, unit, asked, cap, count);
        *count += u64::from(number == 0);
        number
    });
    is_smallest(&input, "], cap 0");
}

#[test]
fn a_verdict_that_is_always_multiple_is_found() {
    let input = found_in_solve(|unit, asked, cells| match good_solve(unit, asked, cells) {
        101 => 102,
        number => number,
    });
    is_smallest(&input, "], a buffer of 4 bytes");
}

#[test]
fn unsolvable_without_a_look_is_found() {
    let input = found_in_solve(|unit, asked, cells| {
        refusal_with(unit, asked, cells.len(), asked.size.wrapping_pow(2)).unwrap_or(100)
    });
    is_smallest(&input, "], a buffer of 4 bytes");
}

#[test]
fn cells_written_where_there_is_no_grid_are_found() {
    let input = found_in_solve(|unit, asked, cells| {
        let number = good_solve(unit, asked, cells);
        if number == 100 {
            cells.fill(0);
        }
        number
    });
    assert!(input.starts_with("size 2"));
}

/// The last grid of the list where there are several.
fn solve_with_the_last(unit: Unit, asked: Question, cells: &mut [u8]) -> u8 {
    let number = good_solve(unit, asked, cells);
    if number == 102
        && let Some(grids) = every_grid(asked)
    {
        cells.copy_from_slice(grids.last().expect("several grids"));
    }
    number
}

#[test]
fn another_grid_than_the_first_is_found() {
    let input = found_in_solve(solve_with_the_last);
    assert!(input.starts_with("size 3") && marks_shown(&input) == 0);
}

/// The Rust's own grid, at the sizes whose grids are not listed.
#[test]
fn another_grid_than_the_first_is_found_by_counting() {
    let input = found_in_solve(|unit, asked, cells| {
        let number = good_solve(unit, asked, cells);
        if number == 102
            && asked.size > 5
            && let Solved::Multiple(grid) = solved_by_the_rust(asked)
        {
            cells.copy_from_slice(&grid);
        }
        number
    });
    assert!(input.starts_with("size 6"));
}

#[test]
fn a_classroom_that_shows_another_right_grid_is_found() {
    let input = found_in_solve(|unit, asked, cells| match unit {
        Unit::CLASSROOM => solve_with_the_last(unit, asked, cells),
        _ => good_solve(unit, asked, cells),
    });
    assert!(input.starts_with("size 3"));
}

#[test]
fn one_of_several_grids_that_breaks_a_mark_is_found() {
    let input = found_in_solve(|unit, asked, cells| {
        let number = good_solve(unit, asked, cells);
        let grids = every_grid_if(
            number == 102,
            Question {
                marks: &[],
                ..asked
            },
        );
        let is_other =
            |grid: &&'static [u8]| every_grid(asked).is_some_and(|kept| !kept.contains(grid));
        if let Some(other) = grids.into_iter().flatten().find(is_other) {
            cells.copy_from_slice(other);
        }
        number
    });
    assert_eq!(marks_shown(&input), 1);
}

#[test]
fn one_of_several_grids_that_breaks_a_target_is_found() {
    let input = found_in_solve(|unit, asked, cells| {
        let number = good_solve(unit, asked, cells);
        if number == 102 {
            cells[..].rotate_left(asked.size);
        }
        number
    });
    assert!(input.starts_with("size 3") && marks_shown(&input) == 0);
}

/// The verdict alone; the buffer keeps what it held.
#[test]
fn one_of_several_grids_that_is_not_written_is_found() {
    let input = found_in_solve(|unit, asked, cells| {
        let before = cells.to_vec();
        let number = good_solve(unit, asked, cells);
        if number == 102 {
            cells.copy_from_slice(&before);
        }
        number
    });
    assert!(input.starts_with("size 3"));
}

#[test]
fn a_table_with_nothing_struck_is_found() {
    let input = found_in_candidates(|unit, asked, table| {
        let number = good_candidates(unit, asked, table);
        if number == 0 {
            let full = (1u16 << (asked.size + 3)) - 2;
            table.copy_from_slice(&rules::word_bytes(&vec![full; asked.size * asked.size]));
        }
        number
    });
    is_smallest(&input, "], a buffer of 8 bytes");
}

#[test]
fn a_table_of_the_wrong_byte_order_is_found() {
    let input = found_in_candidates(|unit, asked, table| {
        let number = good_candidates(unit, asked, table);
        if number == 0 {
            table.chunks_exact_mut(2).for_each(<[u8]>::reverse);
        }
        number
    });
    is_smallest(&input, "], a buffer of 8 bytes");
}

#[test]
fn a_table_that_is_one_entry_short_is_found() {
    let input = found_in_candidates(|unit, asked, table| {
        let last = table.len().saturating_sub(2);
        let before = table[last..].to_vec();
        let number = good_candidates(unit, asked, table);
        table[last..].copy_from_slice(&before);
        number
    });
    is_smallest(&input, "], a buffer of 8 bytes");
}

#[test]
fn a_table_counted_in_entries_is_found() {
    let input =
        found_in_candidates(
            |unit, asked, table| match good_candidates(unit, asked, table) {
                7 if table.len() == asked.size * asked.size => 0,
                number => number,
            },
        );
    is_smallest(&input, "], a buffer of 4 bytes");
}

#[test]
fn marks_that_are_skipped_are_found() {
    let input = found_in_candidates(|unit, asked, table| {
        let marks = match refusal(unit, asked) {
            None => &[],
            Some(_) => asked.marks,
        };
        good_candidates(unit, Question { marks, ..asked }, table)
    });
    assert!(input.starts_with(SMALLEST));
}

/// The Rust's own table.
fn candidates_of_the_rust(asked: Question, table: &mut [u8]) -> u8 {
    let marks = rules::marks_of(asked.marks);
    let entries = reference::candidates(asked.size, asked.rows, asked.columns, &marks);
    written(entries, table)
}

#[test]
fn arrangements_that_live_by_their_end_cells_are_found() {
    let input =
        found_in_candidates(
            |unit, asked, table| match good_candidates(unit, asked, table) {
                0 | 100 => candidates_of_the_rust(asked, table),
                number => number,
            },
        );
    // Size 3 has no table that differs.
    assert!(input.starts_with("size 4") || input.starts_with("size 5"));
}

/// The same where a grid is left, so that contradictions are those of the rules.
#[test]
fn candidates_that_the_rust_keeps_beside_a_grid_are_found() {
    let input = found_in_candidates(|unit, asked, table| {
        let number = good_candidates(unit, asked, table);
        match every_grid_if(number == 0, asked) {
            Some(grids) if !grids.is_empty() => candidates_of_the_rust(asked, table),
            _ => number,
        }
    });
    assert!(input.starts_with("size 4") || input.starts_with("size 5"));
}

fn every_grid_if(is_accepted: bool, asked: Question) -> Option<Vec<&'static [u8]>> {
    is_accepted.then(|| every_grid(asked)).flatten()
}

/// Every candidate is struck that no grid needs: the table has every grid, and it is
/// closed, but marks and rules did not ask for all of that.
#[test]
fn a_table_that_strikes_too_much_is_found() {
    let input = found_in_candidates(|unit, asked, table| {
        let number = good_candidates(unit, asked, table);
        let grids = every_grid_if(number == 0, asked).unwrap_or_default();
        if !grids.is_empty() {
            let mut entries = rules::marks_of(table);
            for (place, bit) in
                (0..entries.len()).flat_map(|place| (1..12).map(move |bit| (place, bit)))
            {
                let before = entries[place];
                entries[place] &= !(1 << bit);
                if !grids
                    .iter()
                    .all(|grid| rules::has_grid(asked.size, &entries, grid))
                {
                    entries[place] = before;
                }
            }
            table.copy_from_slice(&rules::word_bytes(&entries));
        }
        number
    });
    assert!(input.starts_with("size 4"));
}

/// What live arrangements allow in a row if those are lost that keep a digit only in
/// a cell behind the line's end.
fn allowed_without_wrapping(size: usize, target: u8, row: &[u16]) -> Vec<u16> {
    let mut allowed = vec![0; size];
    for arrangement in rules::arrangements(size, target, rules::row_blacks(size)) {
        let between = &arrangement.cells[1..arrangement.cells.len() - 1];
        let before_the_end = between.iter().filter(|cell| cell.0 > arrangement.start);
        let possible = before_the_end.fold(0, |all, cell| all | row[cell.0]);
        if arrangement.is_live(row) && arrangement.digit_set & !possible == 0 {
            arrangement
                .cells
                .iter()
                .for_each(|cell| allowed[cell.0] |= cell.1);
        }
    }
    allowed
}

#[test]
fn cells_between_the_ends_that_do_not_wrap_are_found() {
    let input = found_in_candidates(|unit, asked, table| {
        let number = good_candidates(unit, asked, table);
        if number == 0 {
            let size = asked.size;
            let [upper, lower] = rules::column_blacks(size);
            let mut entries = rules::marks_of(table);
            for (row, &target) in entries.chunks_mut(size).zip(asked.rows) {
                let allowed = allowed_without_wrapping(size, target, row).into_iter();
                row.iter_mut()
                    .zip(allowed)
                    .for_each(|(entry, allowed)| *entry &= allowed | upper | lower);
            }
            table.copy_from_slice(&rules::word_bytes(&entries));
        }
        number
    });
    assert!(input.starts_with("size 3"));
}

/// The sizes at which a grid is known by a count alone.
#[test]
fn contradicted_beside_a_grid_is_found() {
    let input = found_in_candidates(|unit, asked, table| {
        let before = table.to_vec();
        let number = good_candidates(unit, asked, table);
        if number == 0 && asked.size > 5 {
            table.copy_from_slice(&before);
            return 100;
        }
        number
    });
    assert!(input.starts_with("size 6"));
}

#[test]
fn a_table_written_with_a_contradiction_is_found() {
    let input = found_in_candidates(|unit, asked, table| {
        let number = good_candidates(unit, asked, table);
        if number == 100 {
            table.fill(0);
        }
        number
    });
    assert!(input.starts_with("size 2"));
}

/// Where no grid is left, a table may be written, but a closed one.
#[test]
fn a_table_that_is_not_closed_without_a_grid_is_found() {
    let input = found_in_candidates(|unit, asked, table| {
        let number = good_candidates(unit, asked, table);
        match every_grid_if(number == 100, asked) {
            Some(grids) if grids.is_empty() && asked.marks.is_empty() => {
                let every = (1u16 << (asked.size + 3)) - 2;
                written(Some(vec![every; asked.size * asked.size]), table)
            }
            _ => number,
        }
    });
    assert!(input.starts_with("size 3"));
}

/// As `good_count`, with other limits for each unit.
fn count_with(
    unit: Unit,
    asked: Question,
    cap: u64,
    count: &mut u64,
    greatest_size: usize,
    longest_list: Option<usize>,
) -> u8 {
    let limits = Unit {
        greatest_size,
        longest_list,
    };
    let unit = if unit == Unit::CLASSROOM {
        limits
    } else {
        unit
    };
    good_count(unit, asked, cap, count)
}

#[test]
fn size_7_taken_by_a_classroom_is_found() {
    let input =
        found_in_count(|unit, asked, cap, count| count_with(unit, asked, cap, count, 7, Some(40)));
    assert!(input.starts_with("size 7"));
}

#[test]
fn a_list_of_41_marks_taken_by_a_classroom_is_found() {
    let input =
        found_in_count(|unit, asked, cap, count| count_with(unit, asked, cap, count, 6, Some(41)));
    assert_eq!(marks_shown(&input), 41);
}

#[test]
fn a_list_of_40_marks_refused_by_a_classroom_is_found() {
    let input =
        found_in_count(|unit, asked, cap, count| count_with(unit, asked, cap, count, 6, Some(39)));
    assert_eq!(marks_shown(&input), 40);
}

/// Whole marks; half a mark counts.
fn marks_shown(input: &str) -> usize {
    let (_, marks) = input.split_once("marks [").expect("marks");
    let (marks, _) = marks.split_once(']').expect("their end");
    marks.split_whitespace().count().div_ceil(2)
}

#[test]
fn a_hall_refused_by_19_is_found() {
    let input = found_in_solve(|unit, asked, cells| {
        let limits = Unit {
            longest_list: Some(40),
            ..unit
        };
        good_solve(limits, asked, cells)
    });
    assert_eq!(marks_shown(&input), 41);
}

#[test]
fn a_size_limit_asked_after_the_lengths_is_found() {
    let input = found_in_marking(|unit, size, rows, columns, cells| {
        match good_marking(unit, size, rows, columns, cells) {
            18 if rows.len() != size || columns.len() != size => 2,
            number => number,
        }
    });
    assert!(input.is_some());
}

#[test]
fn a_size_limit_asked_after_the_cells_is_found() {
    let input = found_in_sums(|unit, size, cells, rows, columns| {
        match good_sums(unit, size, cells, rows, columns) {
            18 if cells.len() != size * size => 7,
            number => number,
        }
    });
    assert!(input.is_some());
}

#[test]
fn a_size_limit_asked_first_is_found() {
    let input =
        found_in_candidates(
            |unit, asked, table| match good_candidates(unit, asked, table) {
                1 if unit == Unit::CLASSROOM && asked.size > 6 => 18,
                number => number,
            },
        );
    assert!(input.starts_with("size 10"));
}

#[test]
fn a_list_limit_asked_after_the_marks_is_found() {
    let input =
        found_in_count(
            |unit, asked, cap, count| match good_count(unit, asked, cap, count) {
                19 => rules::marks_refusal(asked.size, &rules::marks_of(asked.marks)).unwrap_or(19),
                number => number,
            },
        );
    assert_eq!(marks_shown(&input), 41);
}

/// What one unit leaves, the other has to leave.
#[test]
fn a_classroom_that_writes_another_grid_is_found() {
    let input = found_in_solve(|unit, asked, cells| {
        let number = good_solve(unit, asked, cells);
        if unit == Unit::CLASSROOM && number == 102 {
            cells.rotate_left(1);
        }
        number
    });
    assert!(input.starts_with("size 3"));
}
