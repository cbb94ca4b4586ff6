//! What count, solve and candidates have in common: puzzle and marks as input,
//! the families of inputs, the way to a smaller input, and the look at every
//! entry that could have been written.

mod families;
mod rest;
mod smaller;

use std::fmt::{self, Debug};

use inputs::Asked;
use rules::Unit;

use crate::engine::{Engine, Question};
use crate::guarded::{Entry, Guarded};
use crate::harness::{Answer, Call, Family, Label, refused};
use crate::simpler;

pub use rest::{Cap, Cells, Rest, Room, Table};

/// A call that gets puzzle and marks and writes entries of one kind.
pub trait Searching: 'static {
    type Rest: Rest;
    type Written: Entry + Debug;

    const NAME: &'static str;

    fn refusal(unit: Unit, asked: &Asked, rest: Self::Rest) -> Option<u8>;

    /// What has to come back where nothing is refused; `None` if the Rust passes
    /// its limit. An error if the Rust does not give what the rules ask for.
    fn expected<'a>(
        accepted: &'a Accepted,
        rest: Self::Rest,
    ) -> Result<Option<Expected<'a, Self::Written>>, String>;

    /// How many entries the buffer has.
    fn room(rest: Self::Rest) -> usize;

    fn run(
        engine: &dyn Engine,
        unit: Unit,
        asked: Question,
        rest: Self::Rest,
        buffer: &mut [Self::Written],
    ) -> u8;
}

impl<S: Searching> Call for S {
    type Input = Input<S::Rest>;

    const NAME: &'static str = S::NAME;

    fn families() -> Vec<Family<Self::Input>> {
        families::families()
    }

    fn check(engine: &dyn Engine, input: &Self::Input) -> Result<Answer, String> {
        let accepted = Accepted::of(&input.asked);
        let hall = match S::refusal(Unit::HALL, &input.asked, input.rest) {
            Some(number) => Some(Expected::refused(number)),
            None => S::expected(&accepted, input.rest)?,
        };
        checked::<S>(engine, input, hall)
    }

    fn simpler(input: &Self::Input) -> Vec<Self::Input> {
        smaller::smaller(input)
    }
}

/// Runs the engine, told what has to come back in the hall; `None` if nobody knows. What
/// both units take has to come back the same from both.
pub fn checked<S: Searching>(
    engine: &dyn Engine,
    input: &Input<S::Rest>,
    hall: Option<Expected<S::Written>>,
) -> Result<Answer, String> {
    let refused = S::refusal(Unit::CLASSROOM, &input.asked, input.rest);
    if let Some(number) = refused {
        let left = left_by::<S>(engine, Unit::CLASSROOM, input)?;
        let right = Expected::refused(number).judged(engine, &left);
        in_unit(Unit::CLASSROOM, right)?;
    }
    let Some(hall) = hall else {
        return Ok(Answer::of(SKIPPED, refused));
    };
    let left = left_by::<S>(engine, Unit::HALL, input)?;
    let right = in_unit(Unit::HALL, hall.judged(engine, &left))?;
    if refused.is_none() {
        the_same(&left, &left_by::<S>(engine, Unit::CLASSROOM, input)?)?;
    }
    Ok(Answer {
        beside: right.beside,
        ..Answer::of(right.label, refused)
    })
}

/// Puzzle and marks, and what the call gets besides.
#[derive(Clone, Debug)]
pub struct Input<R> {
    pub asked: Asked,
    pub rest: R,
}

impl<R: Rest> fmt::Display for Input<R> {
    fn fmt(&self, f: &mut fmt::Formatter<'_>) -> fmt::Result {
        let Asked {
            size,
            rows,
            columns,
            marks,
        } = &self.asked;
        let marks = simpler::shown(0, marks);
        write!(
            f,
            "size {size}, rows {rows:?}, columns {columns:?}, marks [{marks}], {}",
            self.rest
        )
    }
}

/// A puzzle and marks without a fault.
pub struct Accepted<'a> {
    pub size: usize,
    pub rows: &'a [u8],
    pub columns: &'a [u8],
    pub marks: Vec<u16>,
}

impl<'a> Accepted<'a> {
    fn of(asked: &'a Asked) -> Self {
        Self {
            size: asked.size,
            rows: &asked.rows,
            columns: &asked.columns,
            marks: rules::marks_of(&asked.marks),
        }
    }

    /// Every grid by the rules alone, at the sizes that are listed.
    pub fn grids(&self) -> Option<Vec<&'static [u8]>> {
        rules::every_grid(self.size, self.rows, self.columns, &self.marks)
    }
}

/// An input on which the Rust passes its limit: nobody knows its answer.
const SKIPPED: Label = "skipped";

/// Says how an answer is counted, or what is wrong with it. It may ask the engine more.
type Judge<'a, T> = dyn Fn(&dyn Engine, &Left<T>) -> Result<Right, String> + 'a;

/// What has to come back.
pub enum Expected<'a, T> {
    /// One answer: the number, and what is written, if anything is.
    Exactly {
        number: u8,
        written: Option<Vec<T>>,
        label: Label,
    },
    /// The rules allow several answers, or the right one is not known beforehand.
    Judged(Box<Judge<'a, T>>),
}

/// What a call left: its number, and its buffer with guards that are whole.
#[derive(Debug, PartialEq)]
pub struct Left<T> {
    pub number: u8,
    pub entries: Vec<T>,
    pub is_untouched: bool,
}

/// How an answer that is right is counted.
pub struct Right {
    pub label: Label,
    /// A difference from the Rust that is allowed.
    pub beside: Option<Label>,
}

impl<T: Entry + Debug> Expected<'_, T> {
    fn refused(number: u8) -> Self {
        Self::Exactly {
            number,
            written: None,
            label: refused(number),
        }
    }

    fn judged(&self, engine: &dyn Engine, left: &Left<T>) -> Result<Right, String> {
        let (number, written, label) = match self {
            Self::Exactly {
                number,
                written,
                label,
            } => (*number, written, label),
            Self::Judged(judge) => return judge(engine, left),
        };
        let is_right = match written {
            Some(entries) => left.entries == *entries,
            None => left.is_untouched,
        };
        if left.number == number && is_right {
            let beside = None;
            Ok(Right { label, beside })
        } else {
            Err(difference(number, written.as_deref(), left))
        }
    }
}

/// Runs the engine and looks at every entry that it could have touched.
fn left_by<S: Searching>(
    engine: &dyn Engine,
    unit: Unit,
    input: &Input<S::Rest>,
) -> Result<Left<S::Written>, String> {
    let Input { asked, rest } = input;
    let mut rows = Guarded::holding(&asked.rows);
    let mut columns = Guarded::holding(&asked.columns);
    let mut marks = Guarded::holding(&asked.marks);
    let mut buffer = Guarded::patterned(S::room(*rest));
    let question = Question {
        size: asked.size,
        rows: rows.content(),
        columns: columns.content(),
        marks: marks.content(),
    };
    let number = S::run(engine, unit, question, *rest, buffer.content());

    let entries = buffer.content().to_vec();
    if !buffer.holds(&entries) {
        in_unit(
            unit,
            Err(format!("answers {number} and writes beside its buffer")),
        )
    } else if ![rows, columns, marks].iter().all(Guarded::is_untouched) {
        in_unit(unit, Err(format!("answers {number} and changes its input")))
    } else {
        Ok(Left {
            number,
            entries,
            is_untouched: buffer.is_untouched(),
        })
    }
}

/// A difference says which unit has it.
fn in_unit<T>(unit: Unit, found: Result<T, String>) -> Result<T, String> {
    found.map_err(|difference| format!("{unit:?}: the engine {difference}"))
}

fn the_same<T: Debug + PartialEq>(hall: &Left<T>, classroom: &Left<T>) -> Result<(), String> {
    if hall == classroom {
        Ok(())
    } else {
        Err(format!(
            "the units differ: the hall leaves {hall:x?}, a classroom {classroom:x?}"
        ))
    }
}

fn difference<T: Debug>(number: u8, written: Option<&[T]>, left: &Left<T>) -> String {
    let right = match written {
        Some(entries) => format!("{number} with {entries:x?}"),
        None => format!("{number} and nothing written"),
    };
    format!(
        "answers {} and leaves {:x?}; right is {right}",
        left.number, left.entries
    )
}

/// For the report of a difference between the two that the engine is held to.
pub fn disagree(rules: impl Debug, rust: impl Debug) -> String {
    format!("the rules give {rules:?}, the Rust gives {rust:?}")
}
