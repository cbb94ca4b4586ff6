//! The subsets of the digits 1 to 7, as the appendix of the papers has them.

/// A set of digits: digit d is bit d of its mask.
#[derive(Clone, Copy, Debug, PartialEq, Eq)]
pub struct Subset {
    pub mask: u16,
    pub sum: usize,
    pub size: usize,
}

/// All of them, by sum, then by size, then by mask.
pub fn subsets() -> Vec<Subset> {
    let mut all: Vec<Subset> = (0..1 << 8).step_by(2).map(subset).collect();
    all.sort_by_key(|subset| (subset.sum, subset.size, subset.mask));
    all
}

/// What the program `subsets` prints: a line for each.
pub fn printed_subsets() -> String {
    subsets()
        .iter()
        .map(|Subset { mask, sum, size }| format!("{mask} {sum} {size}\n"))
        .collect()
}

fn subset(mask: u16) -> Subset {
    let digits = (1..=7).filter(|digit| mask >> digit & 1 == 1);
    Subset {
        mask,
        sum: digits.clone().sum(),
        size: digits.count(),
    }
}
