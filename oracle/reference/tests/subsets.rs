//! The Rust visits the subsets of each sum in the order in which they are printed, and
//! those of a smaller size are the printed ones whose digits it has.

use rules::{greatest_target, subsets};

#[test]
fn the_printed_order() {
    for size in 2..=9 {
        for sum in 0..=greatest_target(size) {
            let printed: Vec<(usize, u64)> = subsets()
                .iter()
                .filter(|subset| subset.mask >> (size - 1) == 0 && subset.sum == sum)
                .map(|subset| (subset.size, u64::from(subset.mask)))
                .collect();
            assert_eq!(
                reference::subsets_of_sum(size, sum),
                printed,
                "size {size}, sum {sum}"
            );
        }
    }
}
