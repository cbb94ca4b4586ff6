//! Target sums, marking, counting, solving, candidates and a classroom's limits from
//! Rust. It prints the same lines as the C example.

use doppelblock::{
    BLACK as B, Candidates, EMPTY, Mark, Refusal, Sheet, Unit, Verdict, candidates, count,
    mark_sheet, solve, target_sums,
};

pub fn main() -> Result<(), Refusal> {
    sums_and_marking()?;
    a_repeated_digit()?;
    counting_and_solving()?;
    what_remains()?;
    a_classroom();
    Ok(())
}

fn sums_and_marking() -> Result<(), Refusal> {
    let mut cells = [B, 1, B, 1, B, B, B, B, 1];
    let (mut rows, mut columns) = ([0; 3], [0; 3]);

    target_sums(3, &cells, &mut rows, &mut columns)?;
    println!("rows {}, columns {}", listed(&rows), listed(&columns));

    assert_eq!(mark_sheet(3, &rows, &columns, &cells)?, Sheet::Right);
    println!("the sheet is right");

    cells[0] = EMPTY;
    assert_eq!(mark_sheet(3, &rows, &columns, &cells)?, Sheet::Wrong);
    println!("without its first black it is wrong");

    let refusal = target_sums(3, &cells, &mut rows, &mut columns).unwrap_err();
    println!("and its sums are refused with {}", refusal.number());
    Ok(())
}

/// A sheet with a digit twice in its second row, marked against its own sums.
fn a_repeated_digit() -> Result<(), Refusal> {
    let cells = [1, 2, B, B, 2, B, 2, B, B, B, 1, 2, B, 2, B, 1];
    let (mut rows, mut columns) = ([0; 4], [0; 4]);
    target_sums(4, &cells, &mut rows, &mut columns)?;
    assert_eq!(mark_sheet(4, &rows, &columns, &cells)?, Sheet::Wrong);
    println!("a sheet with a digit twice in a line is wrong, though its sums are right");
    Ok(())
}

fn counting_and_solving() -> Result<(), Refusal> {
    let (rows, columns) = ([0, 1, 0], [0, 1, 0]);
    let grids = count(3, &rows, &columns, &[], 100)?;
    println!("rows {0}, columns {0}: {grids} grids", listed(&rows));

    let mut cells = [EMPTY; 9];
    let verdict = solve(3, &rows, &columns, &[], &mut cells)?;
    assert_eq!(verdict, Verdict::Multiple);
    let first = drawn(&cells);
    println!("the first of them, its top right black furthest right: {first}");

    let marks = Mark::list(&[Mark::reject(0, 0, 1)]);
    let verdict = solve(3, &rows, &columns, &marks, &mut cells)?;
    assert_eq!(verdict, Verdict::Unique);
    println!("one without a 1 in its first cell: {}", drawn(&cells));
    Ok(())
}

/// What one cell can still be. Digit 1 cannot stand there: where column 3 would have
/// 1 and 2 between its blacks, no cell between them is left for the 2.
fn what_remains() -> Result<(), Refusal> {
    let (rows, columns) = ([2, 0, 4, 4, 0], [3, 1, 6, 3, 0]);
    let mut table = [0; 2 * 5 * 5];
    let answer = candidates(5, &rows, &columns, &[], &mut table)?;
    assert_eq!(answer, Candidates::Written);
    let entry = 2 * (2 * 5 + 3);
    let left = u16::from_be_bytes([table[entry], table[entry + 1]]);
    let digits: Vec<String> = (1..=3)
        .filter(|digit| left >> digit & 1 == 1)
        .map(|digit| digit.to_string())
        .collect();
    println!(
        "rows {}, columns {}: row 2, column 3 can be {}{}",
        listed(&rows),
        listed(&columns),
        digits.join(" "),
        if left >> 4 == 0 { "" } else { " or black" }
    );
    Ok(())
}

/// A classroom takes smaller sizes than the hall, and shorter lists of marks.
fn a_classroom() {
    let (rows, columns) = ([8, 2, 15, 1, 0, 0, 3], [6, 10, 0, 4, 8, 0, 7]);
    let unit = Unit::Classroom;
    let size_limit = unit.size_limit();
    let list_limit = unit.list_limit().expect("a classroom has one");
    println!("a classroom takes sizes up to {size_limit} and lists of up to {list_limit} marks");

    let mut cells = [EMPTY; 49];
    let refusal = unit.solve(7, &rows, &columns, &[], &mut cells).unwrap_err();
    assert_eq!(refusal, Refusal::SizeLimit(6));
    let number = refusal.number();
    println!("a puzzle of size 7 is refused there with {number}: the limit is {size_limit}");
}

fn listed(sums: &[u8]) -> String {
    let numbers: Vec<String> = sums.iter().map(u8::to_string).collect();
    numbers.join(" ")
}

/// Rows joined by `/`, blacks as `#`.
fn drawn(cells: &[u8; 9]) -> String {
    let cell = |&cell: &u8| match cell {
        B => "#".to_string(),
        digit => digit.to_string(),
    };
    let rows = cells.chunks_exact(3);
    let rows: Vec<String> = rows.map(|row| row.iter().map(cell).collect()).collect();
    rows.join("/")
}
