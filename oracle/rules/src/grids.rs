use crate::{BLACK, Mark, line_fault};

/// Whether these cells satisfy the rules, the targets and every mark.
pub fn satisfies(size: usize, rows: &[u8], columns: &[u8], marks: &[u16], cells: &[u8]) -> bool {
    let row = |r: usize| cells[r * size..][..size].to_vec();
    let column = |c: usize| (0..size).map(|r| cells[r * size + c]).collect::<Vec<u8>>();
    (0..size).all(|r| line_fault(&row(r), rows[r]).is_none())
        && (0..size).all(|c| line_fault(&column(c), columns[c]).is_none())
        && marks.iter().all(|&mark| keeps_mark(size, cells, mark))
}

/// Whether these cells keep the mark: they have its value if it is taken, and
/// not if it is rejected.
pub fn keeps_mark(size: usize, cells: &[u8], mark: u16) -> bool {
    let mark = Mark::unpack(mark);
    let row = &cells[mark.row * size..][..size];
    let column: Vec<u8> = (0..size).map(|r| cells[r * size + mark.column]).collect();
    has_value(mark, row, &column) != mark.rejected
}

/// Whether the cell of `mark` has its value, given the cell's two lines.
fn has_value(mark: Mark, row: &[u8], column: &[u8]) -> bool {
    let first = |line: &[u8]| line.iter().position(|&cell| cell == BLACK);
    let last = |line: &[u8]| line.iter().rposition(|&cell| cell == BLACK);
    match mark.value {
        8 => first(row) == Some(mark.column),
        9 => last(row) == Some(mark.column),
        10 => first(column) == Some(mark.row),
        11 => last(column) == Some(mark.row),
        digit => row[mark.column] == digit,
    }
}

/// Every way to put a black or a digit into each cell. Meant for sizes 2 and 3:
/// size 4 already has 43 million.
pub fn ways(size: usize) -> impl Iterator<Item = Vec<u8>> {
    let symbols: Vec<u8> = (1..=size as u8 - 2).chain([BLACK]).collect();
    let places = size * size;
    let total = symbols.len().pow(places as u32);
    (0..total).map(move |mut index| {
        let mut cells = vec![0; places];
        for cell in &mut cells {
            *cell = symbols[index % symbols.len()];
            index /= symbols.len();
        }
        cells
    })
}
