//! The printed subsets.

use std::collections::BTreeSet;

use rules::{printed_subsets, subsets};

#[test]
fn first_second_and_last() {
    let printed = printed_subsets();
    assert!(printed.starts_with("0 0 0\n2 1 1\n"));
    assert!(printed.ends_with("\n254 28 7\n"));
}

#[test]
fn each_subset_once() {
    let masks: BTreeSet<u16> = subsets().iter().map(|subset| subset.mask).collect();
    assert_eq!(masks, (0..=254).step_by(2).collect());
    assert_eq!(subsets().len(), 128);
}

#[test]
fn those_of_one_sum() {
    let of_five: Vec<u16> = subsets()
        .iter()
        .filter(|subset| subset.sum == 5)
        .map(|subset| subset.mask)
        .collect();
    // 5, 2 + 3, 1 + 4
    assert_eq!(of_five, [32, 12, 18]);
}
