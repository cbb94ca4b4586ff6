//! Every grid of a small size, so that counts and the first grid can be had from the rules
//! alone.

use std::collections::HashMap;
use std::sync::OnceLock;

use crate::order::put_in_order;
use crate::sums::sums;
use crate::{BLACK, Sums, satisfies};

/// Sizes whose grids are few enough to list: size 5 has some 70,000.
pub const LISTED: std::ops::RangeInclusive<usize> = 2..=5;

type ByTargets = HashMap<Sums, Vec<Vec<u8>>>;

/// Every grid that satisfies puzzle and marks, in their order, or `None` for a size that
/// is not listed.
pub fn every_grid(
    size: usize,
    rows: &[u8],
    columns: &[u8],
    marks: &[u16],
) -> Option<Vec<&'static [u8]>> {
    static LISTS: [OnceLock<ByTargets>; 4] = [const { OnceLock::new() }; 4];
    let list = LISTS[LISTED.into_iter().position(|listed| listed == size)?]
        .get_or_init(|| by_targets(size));
    let grids = list.get(&(rows.to_vec(), columns.to_vec()));
    let kept = |cells: &&'static [u8]| satisfies(size, rows, columns, marks, cells);
    let cells = grids.into_iter().flatten().map(Vec::as_slice);
    Some(cells.filter(kept).collect())
}

/// All grids of this size, by their targets, those of a puzzle in their order.
fn by_targets(size: usize) -> ByTargets {
    let mut list = ByTargets::new();
    for cells in lay_rows(size) {
        if let Ok((rows, columns)) = sums(size, &cells) {
            list.entry((rows, columns)).or_default().push(cells);
        }
    }
    list.values_mut()
        .for_each(|grids| put_in_order(size, grids));
    list
}

/// Row under row, without those in which a column has a digit twice or a third
/// black.
fn lay_rows(size: usize) -> Vec<Vec<u8>> {
    let rows = rows_of(size);
    let mut laid = vec![Vec::new()];
    for _ in 0..size {
        laid = laid
            .iter()
            .flat_map(|cells| rows.iter().map(move |row| [&cells[..], row].concat()))
            .filter(|cells| (0..size).all(|c| is_open(cells.iter().skip(c).step_by(size))))
            .collect();
    }
    laid
}

/// Every order of the digits and two blacks.
fn rows_of(size: usize) -> Vec<Vec<u8>> {
    let symbols: Vec<u8> = (1..=size as u8 - 2).chain([BLACK]).collect();
    let mut rows = vec![Vec::new()];
    for _ in 0..size {
        rows = rows
            .iter()
            .flat_map(|row| {
                symbols
                    .iter()
                    .map(move |&symbol| [&row[..], &[symbol]].concat())
            })
            .filter(|row| is_open(row.iter()))
            .collect();
    }
    rows
}

/// No digit twice, no third black.
fn is_open<'a>(line: impl Iterator<Item = &'a u8>) -> bool {
    let mut times = [0; 256];
    line.into_iter().all(|&cell| {
        times[usize::from(cell)] += 1;
        times[usize::from(cell)] <= if cell == BLACK { 2 } else { 1 }
    })
}
