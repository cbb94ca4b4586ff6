use crate::{BLACK, EMPTY, Unit, cells_refusal, lengths_refusal, size_refusal};

/// The sums of the rows and of the columns.
pub type Sums = (Vec<u8>, Vec<u8>);

/// Target sums: the answer for buffers of these lengths.
pub fn target_sums(
    unit: Unit,
    size: usize,
    cells: &[u8],
    rows_len: usize,
    columns_len: usize,
) -> Result<Sums, u8> {
    let refusal = size_refusal(size)
        .or_else(|| unit.size_refusal(size))
        .or_else(|| cells_refusal(size, cells.len()))
        .or_else(|| lengths_refusal(size, rows_len, columns_len));
    match refusal {
        Some(number) => Err(number),
        None => sums(size, cells),
    }
}

/// All rows come before all columns.
pub fn sums(size: usize, cells: &[u8]) -> Result<Sums, u8> {
    let row = |r: usize| cells[r * size..][..size].to_vec();
    let column = |c: usize| (0..size).map(|r| cells[r * size + c]).collect();
    let rows = (0..size)
        .map(row)
        .map(|line| line_sum(&line))
        .collect::<Result<_, _>>()?;
    let columns = (0..size)
        .map(column)
        .map(|line: Vec<u8>| line_sum(&line))
        .collect::<Result<_, _>>()?;
    Ok((rows, columns))
}

/// The sum between the two blacks of a line. The whole line is looked at for
/// one fault before the next fault is looked for.
pub fn line_sum(line: &[u8]) -> Result<u8, u8> {
    let blacks: Vec<usize> = (0..line.len()).filter(|&i| line[i] == BLACK).collect();
    let &[first, second] = blacks.as_slice() else {
        return Err(8);
    };
    let between = &line[first + 1..second];
    if between.contains(&EMPTY) {
        return Err(9);
    }
    let sum: u32 = between.iter().map(|&digit| u32::from(digit)).sum();
    u8::try_from(sum).map_err(|_| 10)
}
