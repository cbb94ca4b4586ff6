/// A pencil mark: a value that a cell takes or rejects.
///
/// A list of marks is handed over as bytes, two for each mark:
///
/// ```
/// use doppelblock::{LEFT_BLACK, Mark};
///
/// let marks = [Mark::take(1, 1, LEFT_BLACK), Mark::reject(0, 0, 1)];
/// assert_eq!(Mark::list(&marks), [0x08, 0xC0, 0x80, 0x08]);
/// ```
#[derive(Clone, Copy, Debug, PartialEq, Eq, Hash)]
pub struct Mark {
    word: u16,
}

/// Value of a mark: the left black of the cell's row.
pub const LEFT_BLACK: u8 = 8;
/// Value of a mark: the right black of the cell's row.
pub const RIGHT_BLACK: u8 = 9;
/// Value of a mark: the upper black of the cell's column.
pub const UPPER_BLACK: u8 = 10;
/// Value of a mark: the lower black of the cell's column.
pub const LOWER_BLACK: u8 = 11;

impl Mark {
    /// The cell has this value: a digit, or one of the four blacks. Rows and
    /// columns count from 0. What the size does not have is refused by the call
    /// that gets the mark.
    ///
    /// # Panics
    ///
    /// If one of the three is above 15, for which a mark has no room.
    pub const fn take(row: u8, column: u8, value: u8) -> Mark {
        assert!(row < 16 && column < 16 && value < 16, "four bits each");
        let word = (row as u16) << 11 | (column as u16) << 7 | (value as u16) << 3;
        Mark { word }
    }

    /// The cell does not have this value.
    ///
    /// # Panics
    ///
    /// As [`Mark::take`].
    pub const fn reject(row: u8, column: u8, value: u8) -> Mark {
        let word = 1 << 15 | Mark::take(row, column, value).word;
        Mark { word }
    }

    /// The two bytes of this mark, the more significant first.
    pub const fn to_bytes(self) -> [u8; 2] {
        self.word.to_be_bytes()
    }

    /// The bytes of all these marks, one behind the other.
    pub fn list(marks: &[Mark]) -> Vec<u8> {
        marks.iter().flat_map(|mark| mark.to_bytes()).collect()
    }
}
