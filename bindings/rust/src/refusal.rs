use crate::Unit;
use std::error::Error;
use std::fmt;

/// Why the engine did not answer.
#[derive(Clone, Copy, Debug, PartialEq, Eq, Hash)]
#[non_exhaustive]
pub enum Refusal {
    /// The size is not 2 to 9.
    Size,
    /// Not one target for each row and one for each column.
    TargetLengths,
    /// A target is greater than any sum of this size.
    Target,
    /// The spare bits of a mark are not zero, or half of it is missing.
    MarkSpare,
    /// The row or the column of a mark is outside the grid.
    MarkPlace,
    /// The value of a mark is neither a digit of this size nor a black.
    MarkValue,
    /// Not one byte for each cell, or not two bytes for each in a table.
    CellsLength,
    /// A line does not have exactly two black cells.
    Blacks,
    /// A cell between the black cells of a line is empty.
    EmptyCell,
    /// The numbers between the black cells of a line add up to more than 255.
    Sum,
    /// The size is above this, the limit of a classroom.
    SizeLimit(u8),
    /// The list has more marks than this, the limit of a classroom. Half a mark at
    /// its end counts as a mark.
    ListLimit(u8),
}

impl Refusal {
    /// Every refusal of the hall, by rising number. A classroom has two more, which
    /// carry its limits: [`Refusal::SizeLimit`] and [`Refusal::ListLimit`].
    pub const ALL: [Refusal; 10] = [
        Refusal::Size,
        Refusal::TargetLengths,
        Refusal::Target,
        Refusal::MarkSpare,
        Refusal::MarkPlace,
        Refusal::MarkValue,
        Refusal::CellsLength,
        Refusal::Blacks,
        Refusal::EmptyCell,
        Refusal::Sum,
    ];

    /// The number by which the engine and its papers name this refusal.
    pub fn number(self) -> u8 {
        match self {
            Refusal::Size => 1,
            Refusal::TargetLengths => 2,
            Refusal::Target => 3,
            Refusal::MarkSpare => 4,
            Refusal::MarkPlace => 5,
            Refusal::MarkValue => 6,
            Refusal::CellsLength => 7,
            Refusal::Blacks => 8,
            Refusal::EmptyCell => 9,
            Refusal::Sum => 10,
            Refusal::SizeLimit(_) => 18,
            Refusal::ListLimit(_) => 19,
        }
    }

    /// The refusal of this number in this unit, with the unit's limit if it
    /// carries one. The hall has neither 18 nor 19.
    pub fn from_number(number: u8, unit: Unit) -> Option<Refusal> {
        match (number, unit) {
            (18, Unit::Classroom) => Some(Refusal::SizeLimit(byte(unit.size_limit()))),
            (19, Unit::Classroom) => unit.list_limit().map(byte).map(Refusal::ListLimit),
            _ => Refusal::ALL
                .into_iter()
                .find(|refusal| refusal.number() == number),
        }
    }

    /// What is wrong, without the limit that a refusal may carry.
    fn text(self) -> &'static str {
        match self {
            Refusal::Size => "the size must be 2 to 9",
            Refusal::TargetLengths => "each row and each column needs exactly one target",
            Refusal::Target => "a target is greater than the digits of this size allow",
            Refusal::MarkSpare => "a mark has spare bits that are not zero, or is cut in half",
            Refusal::MarkPlace => "a mark names a row or column outside the grid",
            Refusal::MarkValue => "a mark names a value that this size does not have",
            Refusal::CellsLength => "each cell of the grid needs exactly one entry",
            Refusal::Blacks => "a row or column does not have exactly two black cells",
            Refusal::EmptyCell => "a cell between two blacks is empty",
            Refusal::Sum => "the numbers between two blacks add up to more than 255",
            Refusal::SizeLimit(_) => "the size is above the limit of this unit",
            Refusal::ListLimit(_) => "the list has more marks than the limit of this unit",
        }
    }
}

/// A limit of the classrooms: a byte, so that a refusal stays small.
fn byte(limit: usize) -> u8 {
    u8::try_from(limit).expect("the limits of the classrooms are below 256")
}

impl fmt::Display for Refusal {
    fn fmt(&self, f: &mut fmt::Formatter<'_>) -> fmt::Result {
        write!(f, "refused ({}): {}", self.number(), self.text())?;
        match self {
            Refusal::SizeLimit(limit) | Refusal::ListLimit(limit) => {
                write!(f, ", which is {limit}")
            }
            _ => Ok(()),
        }
    }
}

impl Error for Refusal {}
