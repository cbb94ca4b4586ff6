/// Who asks: the greatest size and the longest list of marks that are taken.
#[derive(Clone, Copy, Debug, PartialEq, Eq)]
pub struct Unit {
    pub greatest_size: usize,
    pub longest_list: Option<usize>,
}

impl Unit {
    /// Every size of the puzzle, and any list.
    pub const HALL: Self = Self {
        greatest_size: 9,
        longest_list: None,
    };

    /// Sizes up to 6, and lists of at most 40 marks.
    pub const CLASSROOM: Self = Self {
        greatest_size: 6,
        longest_list: Some(40),
    };

    /// Number 18: a size above that of the unit.
    pub fn size_refusal(self, size: usize) -> Option<u8> {
        (size > self.greatest_size).then_some(18)
    }

    /// Number 19: more marks than the unit takes.
    pub fn list_refusal(self, marks: usize) -> Option<u8> {
        self.longest_list
            .is_some_and(|longest| marks > longest)
            .then_some(19)
    }
}
