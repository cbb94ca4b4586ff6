use crate::{Unit, cells_refusal, puzzle_refusal, satisfies};

/// Marking: whether the sheet is right, which is whether it satisfies the rules
/// and the targets.
pub fn mark_sheet(
    unit: Unit,
    size: usize,
    rows: &[u8],
    columns: &[u8],
    cells: &[u8],
) -> Result<bool, u8> {
    let refusal =
        puzzle_refusal(unit, size, rows, columns).or_else(|| cells_refusal(size, cells.len()));
    match refusal {
        Some(number) => Err(number),
        None => Ok(satisfies(size, rows, columns, &[], cells)),
    }
}
