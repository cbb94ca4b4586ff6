use crate::{Unit, cells_refusal, marks_refusal, puzzle_refusal};

/// The marks of a list. A byte left over at its end is half a mark; it is read
/// with spare bits that are not zero, so that it is refused by 4 in its turn.
pub fn marks_of(bytes: &[u8]) -> Vec<u16> {
    bytes
        .chunks(2)
        .map(|mark| u16::from_be_bytes([mark[0], mark.get(1).copied().unwrap_or(7)]))
        .collect()
}

/// The bytes of these marks or table entries, the more significant first.
pub fn word_bytes(words: &[u16]) -> Vec<u8> {
    words.iter().flat_map(|word| word.to_be_bytes()).collect()
}

/// Count: numbers 1, 18, 2, 3, 19, then 4, 5, 6 mark by mark. Half a mark counts
/// as one for 19.
pub fn count_refusal(
    unit: Unit,
    size: usize,
    rows: &[u8],
    columns: &[u8],
    marks: &[u8],
) -> Option<u8> {
    let marks = marks_of(marks);
    puzzle_refusal(unit, size, rows, columns)
        .or_else(|| unit.list_refusal(marks.len()))
        .or_else(|| marks_refusal(size, &marks))
}

/// Solve: as Count, then 7.
pub fn solve_refusal(
    unit: Unit,
    size: usize,
    rows: &[u8],
    columns: &[u8],
    marks: &[u8],
    cells_len: usize,
) -> Option<u8> {
    count_refusal(unit, size, rows, columns, marks).or_else(|| cells_refusal(size, cells_len))
}

/// Candidates: as Solve, but an entry has two bytes.
pub fn candidates_refusal(
    unit: Unit,
    size: usize,
    rows: &[u8],
    columns: &[u8],
    marks: &[u8],
    table_len: usize,
) -> Option<u8> {
    count_refusal(unit, size, rows, columns, marks)
        .or_else(|| (table_len != 2 * size * size).then_some(7))
}
