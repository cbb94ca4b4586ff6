//! Candidates as the bits of an entry: digit d is bit d; the left, right, upper and
//! lower black are bits size - 1 to size + 2.

/// The bit of a mark's value: a digit keeps its number, the blacks are 8 to 11.
pub fn bit(size: usize, value: u8) -> u16 {
    match value {
        8..=11 => 1 << (size - 1 + usize::from(value) - 8),
        digit => 1 << digit,
    }
}

/// Every digit of the size.
pub fn digits(size: usize) -> u16 {
    (1 << (size - 1)) - 2
}

/// The left and the right black of a row.
pub fn row_blacks(size: usize) -> [u16; 2] {
    [bit(size, 8), bit(size, 9)]
}

/// The upper and the lower black of a column.
pub fn column_blacks(size: usize) -> [u16; 2] {
    [bit(size, 10), bit(size, 11)]
}

/// What a cell can be in its row: a digit or a row black.
pub fn row_half(size: usize) -> u16 {
    let [left, right] = row_blacks(size);
    digits(size) | left | right
}

/// What a cell can be in its column: a digit or a column black.
pub fn column_half(size: usize) -> u16 {
    let [upper, lower] = column_blacks(size);
    digits(size) | upper | lower
}
