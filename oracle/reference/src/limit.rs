use std::cell::Cell;
use std::panic;
use std::rc::Rc;
use std::time::Instant;

use rublock::recorder::Recorder;

use crate::caught::caught;

/// How long a search may run. A node limit gives the same result on every
/// machine; a deadline does not.
#[derive(Clone, Copy, Debug)]
pub enum Limit {
    Nodes(u64),
    Deadline(Instant),
}

thread_local! {
    static CURRENT: Cell<Limit> = const { Cell::new(Limit::Nodes(u64::MAX)) };
}

struct LimitReached;

/// Runs `search`, which records in [`Limited`]; `None` if it passed the limit.
pub fn within<T>(limit: Limit, search: impl FnOnce() -> T) -> Option<T> {
    CURRENT.set(limit);
    match caught(search) {
        Ok(found) => Some(found),
        Err(payload) if payload.is::<LimitReached>() => None,
        Err(payload) => panic::resume_unwind(payload),
    }
}

/// A recorder that ends the search at the limit. The published search has no
/// limit of its own, but it tells its recorder of every node.
#[derive(Clone)]
pub struct Limited {
    limit: Limit,
    nodes: Rc<Cell<u64>>,
}

impl Default for Limited {
    fn default() -> Self {
        Self {
            limit: CURRENT.get(),
            nodes: Rc::default(),
        }
    }
}

impl Recorder for Limited {
    fn on_search_node(&self) {
        self.nodes.set(self.nodes.get() + 1);
        let reached = match self.limit {
            Limit::Nodes(most) => self.nodes.get() > most,
            Limit::Deadline(end) => Instant::now() > end,
        };
        if reached {
            panic::resume_unwind(Box::new(LimitReached));
        }
    }
}
