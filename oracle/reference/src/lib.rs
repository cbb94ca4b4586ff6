//! The published Rust behind calls that take the size at run time.
//!
//! These calls refuse nothing. They panic where the size is not 2 to 9, a slice
//! has another length than the size calls for, a target is too large or a mark
//! is not one of this size: the rules answer for those inputs.

/// Runs an expression with the size as a constant.
macro_rules! with_size {
    ($size:expr, $constant:ident => $body:expr) => {
        match $size {
            2 => with_size!(@one 2, $constant => $body),
            3 => with_size!(@one 3, $constant => $body),
            4 => with_size!(@one 4, $constant => $body),
            5 => with_size!(@one 5, $constant => $body),
            6 => with_size!(@one 6, $constant => $body),
            7 => with_size!(@one 7, $constant => $body),
            8 => with_size!(@one 8, $constant => $body),
            9 => with_size!(@one 9, $constant => $body),
            size => panic!("the reference has no size {size}"),
        }
    };
    (@one $number:literal, $constant:ident => $body:expr) => {{
        const $constant: usize = $number;
        $body
    }};
}

mod caught;
mod cells;
mod draw;
mod limit;
mod marking;
mod solver;
mod subsets;
mod sums;

pub use draw::random_grid;
pub use limit::Limit;
pub use marking::is_right;
pub use solver::{
    ReadySolver, Solved, accepts, candidates, count, count_within, opens, ready_solver, solve,
    solve_within,
};
pub use subsets::subsets_of_sum;
pub use sums::{ReadyGrid, overflow_is_checked, ready_grid, target_sums};
