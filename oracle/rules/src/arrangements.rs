//! The arrangements of a line: where its blacks stand, and which digits lie between
//! them or around them.

use std::ops::RangeInclusive;

use crate::greatest_target;
use crate::values::digits;

/// Consecutive cells of a line, which may go on at its beginning: a black, a cell for each
/// digit of a set in any order, and a black.
#[derive(Clone, Debug, PartialEq, Eq)]
pub struct Arrangement {
    pub start: usize,
    /// Digit d is bit d.
    pub digit_set: u16,
    /// The place of each cell and its pattern; the first and the last are the blacks.
    pub cells: Vec<(usize, u16)>,
}

impl Arrangement {
    /// Whether it is still possible in a line with these candidates: each of its cells
    /// has one of its pattern, and each digit of the set has one of the cells between
    /// the blacks.
    pub fn is_live(&self, line: &[u16]) -> bool {
        let between = &self.cells[1..self.cells.len() - 1];
        let possible = between.iter().fold(0, |all, &(place, _)| all | line[place]);
        self.cells
            .iter()
            .all(|&(place, allowed)| line[place] & allowed != 0)
            && self.digit_set & !possible == 0
    }
}

/// Every arrangement of a line with this target and these two blacks. Inside ones have
/// the target's sum and do not wrap; outside ones have the sum of the other digits, and
/// wrap.
pub fn arrangements(size: usize, target: u8, blacks: [u16; 2]) -> Vec<Arrangement> {
    let [first, second] = blacks;
    let target = usize::from(target);
    let inside = of_sum(size, target, [first, second], 0..=size);
    let around = greatest_target(size) - target;
    let outside = of_sum(size, around, [second, first], size + 1..=2 * size);
    inside.chain(outside).collect()
}

/// The arrangements from one black to the other whose digits have this sum and whose
/// end, start + L + 2, is one of these.
fn of_sum(
    size: usize,
    sum: usize,
    blacks: [u16; 2],
    ends: RangeInclusive<usize>,
) -> impl Iterator<Item = Arrangement> {
    let sum_of = move |set: u16| (1..size - 1).filter(|digit| set >> digit & 1 == 1).sum();
    let sets = (0..=digits(size)).step_by(2);
    sets.filter(move |&set| sum == sum_of(set))
        .flat_map(move |digit_set| {
            let ends = ends.clone();
            let length = digit_set.count_ones() as usize;
            (0..size)
                .filter(move |start| ends.contains(&(start + length + 2)))
                .map(move |start| laid(size, start, digit_set, blacks))
        })
}

fn laid(size: usize, start: usize, digit_set: u16, blacks: [u16; 2]) -> Arrangement {
    let between = vec![digit_set; digit_set.count_ones() as usize];
    let patterns = [&blacks[..1], &between, &blacks[1..]].concat();
    let places = (start..).map(|place| place % size);
    Arrangement {
        start,
        digit_set,
        cells: places.zip(patterns).collect(),
    }
}
