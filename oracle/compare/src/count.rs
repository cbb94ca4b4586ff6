//! Counting grids.

use inputs::Asked;
use reference::Limit;
use rules::Unit;

use crate::engine::{Engine, Question};
use crate::harness::Label;
use crate::searching::{Accepted, Cap, Expected, Searching, disagree};

pub struct Count;

impl Searching for Count {
    type Rest = Cap;
    type Written = u64;

    const NAME: &'static str = "count";

    fn refusal(unit: Unit, asked: &Asked, _cap: Cap) -> Option<u8> {
        rules::count_refusal(unit, asked.size, &asked.rows, &asked.columns, &asked.marks)
    }

    fn expected<'a>(
        accepted: &'a Accepted,
        Cap(cap): Cap,
    ) -> Result<Option<Expected<'a, u64>>, String> {
        let Some(rust) = by_rust(accepted, cap) else {
            return Ok(None);
        };
        match accepted.grids() {
            Some(grids) if cap.min(grids.len() as u64) != rust => Err(disagree(grids.len(), rust)),
            _ => Ok(Some(Expected::Exactly {
                number: 0,
                written: Some(vec![rust]),
                label: label(rust, cap),
            })),
        }
    }

    fn room(_cap: Cap) -> usize {
        1
    }

    fn run(
        engine: &dyn Engine,
        unit: Unit,
        asked: Question,
        Cap(cap): Cap,
        count: &mut [u64],
    ) -> u8 {
        engine.count(unit, asked, cap, &mut count[0])
    }
}

fn by_rust(accepted: &Accepted, cap: u64) -> Option<u64> {
    let Accepted {
        size,
        rows,
        columns,
        marks,
    } = accepted;
    let count = reference::count_within(nodes(cap), *size, rows, columns, marks, cap as usize);
    count.map(|count| count as u64)
}

/// Nodes and not time, so that the same inputs are skipped everywhere. To reach
/// its cap a search needs a node for each grid; caps above 1,000 are out of reach.
fn nodes(cap: u64) -> Limit {
    let for_grids = if cap > 1000 { 0 } else { 2 * cap };
    Limit::Nodes(200 + for_grids)
}

fn label(count: u64, cap: u64) -> Label {
    match count {
        _ if cap == 0 => "cap 0",
        0 => "none",
        _ if count == cap => "as many as the cap",
        _ => "fewer than the cap",
    }
}
