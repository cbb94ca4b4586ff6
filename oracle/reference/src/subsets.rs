/// The size and the mask of each set of digits with this sum, in the order in which
/// the solver lists their arrangements.
pub fn subsets_of_sum(size: usize, sum: usize) -> Vec<(usize, u64)> {
    rublock::solver::subsets_of_sum(size - 2, sum)
}
