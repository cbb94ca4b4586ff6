//! Counting the kept puzzles of size 8, for which the Rust has no limit.

use batch::{SIZE, puzzles};
use inputs::{Asked, Puzzle};

use crate::count::Count;
use crate::engine::Engine;
use crate::harness::{Answer, Call, Family, Label};
use crate::searching::{Cap, Expected, Input, checked};

pub const FAMILY: &str = "the kept puzzles of size 8";

pub struct Batch;

impl Call for Batch {
    type Input = Input<Cap>;

    const NAME: &'static str = "count";

    fn families() -> Vec<Family<Self::Input>> {
        let inputs = || puzzles().into_iter().flat_map(with_caps);
        vec![Family::whole(FAMILY, inputs)]
    }

    /// Simpler inputs are those of [`Count`].
    fn check(engine: &dyn Engine, input: &Self::Input) -> Result<Answer, String> {
        if input.asked.size < SIZE {
            return Count::check(engine, input);
        }
        let (count, label) = expected(input);
        let hall = Expected::Exactly {
            number: 0,
            written: Some(vec![count]),
            label,
        };
        checked::<Count>(engine, input, Some(hall))
    }

    /// Of smaller sizes only: another puzzle of this size may take the Rust hours.
    fn simpler(input: &Self::Input) -> Vec<Self::Input> {
        let mut simpler = Count::simpler(input);
        simpler.retain(|input| input.asked.size < SIZE);
        simpler
    }
}

fn with_caps(puzzle: Puzzle) -> [Input<Cap>; 2] {
    [1, 2].map(|cap| Input {
        asked: Asked::of(puzzle.clone(), &[]),
        rest: Cap(cap),
    })
}

/// Each kept puzzle was drawn with a grid. Whether it has another, the Rust says.
fn expected(input: &Input<Cap>) -> (u64, Label) {
    let Asked {
        size,
        rows,
        columns,
        ..
    } = &input.asked;
    let cap = input.rest.0;
    if cap == 1 {
        return (1, "a grid");
    }
    let count = reference::count(*size, rows, columns, &[], cap as usize) as u64;
    let label = if count == 1 { "one grid" } else { "several" };
    (count, label)
}
