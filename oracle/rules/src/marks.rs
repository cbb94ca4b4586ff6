/// One mark, unpacked from its 16 bits.
#[derive(Clone, Copy, Debug, PartialEq, Eq)]
pub struct Mark {
    pub rejected: bool,
    pub row: usize,
    pub column: usize,
    pub value: u8,
    pub spare: u8,
}

impl Mark {
    /// From the most significant bit: kind 1, row 4, column 4, value 4, spare 3.
    pub fn unpack(word: u16) -> Self {
        let field = |shift: u32, width: u32| (word >> shift) & ((1 << width) - 1);
        Self {
            rejected: field(15, 1) == 1,
            row: usize::from(field(11, 4)),
            column: usize::from(field(7, 4)),
            value: field(3, 4) as u8,
            spare: field(0, 3) as u8,
        }
    }

    /// The 16 bits of a mark that takes.
    pub fn taking(row: usize, column: usize, value: u8) -> u16 {
        let mark = Self {
            rejected: false,
            row,
            column,
            value,
            spare: 0,
        };
        mark.pack()
    }

    /// The 16 bits of a mark that rejects.
    pub fn rejecting(row: usize, column: usize, value: u8, spare: u8) -> u16 {
        let rejected = true;
        let mark = Self {
            rejected,
            row,
            column,
            value,
            spare,
        };
        mark.pack()
    }

    /// The 16 bits of this mark.
    pub fn pack(self) -> u16 {
        u16::from(self.rejected) << 15
            | (self.row as u16) << 11
            | (self.column as u16) << 7
            | u16::from(self.value) << 3
            | u16::from(self.spare)
    }

    fn refusal(self, size: usize) -> Option<u8> {
        if self.spare != 0 {
            Some(4)
        } else if self.row >= size || self.column >= size {
            Some(5)
        } else if !has_value(size, self.value) {
            Some(6)
        } else {
            None
        }
    }
}

/// Digits 1 to size - 2, and 8 to 11 for the four kinds of black.
fn has_value(size: usize, value: u8) -> bool {
    (1..=size - 2).contains(&usize::from(value)) || (8..=11).contains(&value)
}

/// Numbers 4, 5 and 6: the first fault of the first faulty mark.
pub fn marks_refusal(size: usize, marks: &[u16]) -> Option<u8> {
    marks
        .iter()
        .find_map(|&word| Mark::unpack(word).refusal(size))
}
