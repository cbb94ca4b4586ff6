//! The candidate table, held to the rules alone: the Rust lets arrangements live by
//! their end cells and keeps more.

use inputs::Asked;
use reference::Limit;
use rules::Unit;

use crate::engine::{Engine, Question};
use crate::harness::Label;
use crate::searching::{Accepted, Expected, Left, Right, Room, Searching, Table, disagree};

pub struct Candidates;

/// Nodes and not time, so that the same answers are known everywhere.
const LIMIT: Limit = Limit::Nodes(200);

impl Searching for Candidates {
    type Rest = Table;
    type Written = u8;

    const NAME: &'static str = "candidates";

    fn refusal(unit: Unit, asked: &Asked, Room(length): Table) -> Option<u8> {
        rules::candidates_refusal(
            unit,
            asked.size,
            &asked.rows,
            &asked.columns,
            &asked.marks,
            length,
        )
    }

    fn expected<'a>(
        accepted: &'a Accepted,
        _table: Table,
    ) -> Result<Option<Expected<'a, u8>>, String> {
        let known = Known::of(accepted);
        known.agree()?;
        Ok(Some(Expected::Judged(Box::new(move |_, left| {
            known.judged(left)
        }))))
    }

    fn room(Room(length): Table) -> usize {
        length
    }

    fn run(
        engine: &dyn Engine,
        unit: Unit,
        asked: Question,
        _table: Table,
        table: &mut [u8],
    ) -> u8 {
        engine.candidates(unit, asked, table)
    }
}

/// What is known of an input.
struct Known<'a> {
    accepted: &'a Accepted<'a>,
    /// Every grid that is left, at the sizes that are listed.
    grids: Option<Vec<&'static [u8]>>,
    /// Whether a grid is left, unless the search for one is too long.
    is_left: Option<bool>,
    by_rules: Option<Vec<u16>>,
    by_rust: Option<Vec<u16>>,
}

impl<'a> Known<'a> {
    fn of(accepted: &'a Accepted<'a>) -> Self {
        let (size, marks) = (accepted.size, &accepted.marks);
        let (rows, columns) = (accepted.rows, accepted.columns);
        let grids = accepted.grids();
        let counted = || reference::count_within(LIMIT, size, rows, columns, marks, 1);
        let is_left = match &grids {
            Some(grids) => Some(!grids.is_empty()),
            None => counted().map(|count| count == 1),
        };
        Self {
            accepted,
            grids,
            is_left,
            by_rules: rules::remaining(size, rows, columns, marks),
            by_rust: reference::candidates(size, rows, columns, marks),
        }
    }

    /// Where a grid is left, both have a table and the Rust has struck nothing more.
    fn agree(&self) -> Result<(), String> {
        let has_both = self.by_rules.is_some() && keeps_all(&self.by_rust, &self.by_rules);
        if self.is_left == Some(true) && !has_both {
            Err(disagree(&self.by_rules, &self.by_rust))
        } else {
            Ok(())
        }
    }

    fn judged(&self, left: &Left<u8>) -> Result<Right, String> {
        let table = match left.number {
            0 => Some(rules::marks_of(&left.entries)),
            100 => None,
            number => return Err(format!("answers {number}; right is {}", self.right())),
        };
        let fault = match &table {
            Some(table) => self.table_fault(table),
            None if !left.is_untouched => Some("a table that is written all the same"),
            None if self.is_left == Some(true) => Some("a grid that is left"),
            None => None,
        };
        match fault {
            Some(fault) => Err(format!(
                "answers {} with {fault}: it leaves {table:x?}; right is {}",
                left.number,
                self.right()
            )),
            None => Ok(Right {
                label: self.label(table.is_some()),
                beside: self.beside(&table),
            }),
        }
    }

    /// What the rules ask of a table. Where a grid is known to be left, it is one table
    /// and no other.
    fn table_fault(&self, table: &[u16]) -> Option<&'static str> {
        let Accepted {
            size,
            rows,
            columns,
            marks,
        } = self.accepted;
        let shows = |&mark: &u16| rules::shows_mark(*size, table, mark);
        let has = |cells: &&[u8]| rules::has_grid(*size, table, cells);
        if !rules::is_filled(table) {
            Some("a cell without a candidate")
        } else if !marks.iter().all(shows) {
            Some("a mark that is not shown")
        } else if !rules::is_closed(*size, rows, columns, table) {
            Some("a table that is not closed")
        } else if !self.grids.iter().flatten().all(has) {
            Some("a grid that is not in the table")
        } else if self.is_left == Some(true) && self.by_rules.as_deref() != Some(table) {
            Some("another table than the one that remains")
        } else {
            None
        }
    }

    /// For the report: what is allowed here.
    fn right(&self) -> String {
        match self.is_left {
            Some(true) => format!("0 with {:x?}", self.by_rules),
            _ => format!("100, or a closed table, say {:x?}", self.by_rules),
        }
    }

    fn label(&self, is_written: bool) -> Label {
        match (is_written, self.is_left) {
            (true, Some(true)) => "written",
            (true, Some(false)) => "written, no grid",
            (true, None) => "written, not known",
            (false, None) => "contradicted, not known",
            (false, _) => "contradicted",
        }
    }

    fn beside(&self, table: &Option<Vec<u16>>) -> Option<Label> {
        if self.by_rust == *table {
            None
        } else if keeps_all(&self.by_rust, table) {
            Some("the Rust keeps more")
        } else {
            Some("the Rust strikes others")
        }
    }
}

/// Whether each candidate of one table is in the other; contradicted has none.
fn keeps_all(table: &Option<Vec<u16>>, of: &Option<Vec<u16>>) -> bool {
    match (table, of) {
        (Some(table), Some(of)) => table.iter().zip(of).all(|(entry, of)| of & !entry == 0),
        (_, of) => of.is_none(),
    }
}
