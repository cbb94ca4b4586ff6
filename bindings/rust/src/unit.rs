use crate::{Candidates, Refusal, Sheet, Verdict, ffi};

/// Who asks: the hall or a classroom. The two differ in their limits only; within
/// those of the classrooms both give the same answers and write the same bytes.
#[derive(Clone, Copy, Debug, PartialEq, Eq, Hash)]
pub enum Unit {
    /// Sizes up to 9, any list of marks.
    Hall,
    /// Sizes up to 6, lists of at most 40 marks.
    Classroom,
}

impl Unit {
    /// The greatest size that this unit takes.
    pub fn size_limit(self) -> usize {
        ffi::size_limit(self)
    }

    /// The greatest number of marks in a list that this unit takes, if it has such
    /// a limit. Half a mark at the end of a list counts as a mark.
    pub fn list_limit(self) -> Option<usize> {
        match ffi::list_limit(self) {
            usize::MAX => None,
            limit => Some(limit),
        }
    }

    /// Writes the sum between the two black cells of each row into `rows` and of
    /// each column into `columns`.
    ///
    /// # Errors
    ///
    /// In this order: [`Refusal::Size`], [`Refusal::SizeLimit`] (never in the
    /// hall), [`Refusal::CellsLength`], [`Refusal::TargetLengths`], then for each
    /// row and each column [`Refusal::Blacks`], [`Refusal::EmptyCell`],
    /// [`Refusal::Sum`].
    pub fn target_sums(
        self,
        size: usize,
        cells: &[u8],
        rows: &mut [u8],
        columns: &mut [u8],
    ) -> Result<(), Refusal> {
        match ffi::target_sums(self, size, cells, rows, columns) {
            0 => Ok(()),
            number => Err(self.refused(number)),
        }
    }

    /// Marks a sheet: `cells` against the puzzle with these targets. It is right
    /// exactly when it keeps the puzzle rules, every digit once in each line, two
    /// blacks, all sums. A cell may be any byte: what is neither black nor a digit
    /// of this size makes the sheet wrong.
    ///
    /// If the puzzle is unique without marks, only the grid that [`Unit::solve`]
    /// writes is right.
    ///
    /// # Errors
    ///
    /// In this order: [`Refusal::Size`], [`Refusal::SizeLimit`] (never in the
    /// hall), [`Refusal::TargetLengths`], [`Refusal::Target`],
    /// [`Refusal::CellsLength`].
    pub fn mark_sheet(
        self,
        size: usize,
        rows: &[u8],
        columns: &[u8],
        cells: &[u8],
    ) -> Result<Sheet, Refusal> {
        match ffi::mark_sheet(self, size, rows, columns, cells) {
            100 => Ok(Sheet::Wrong),
            101 => Ok(Sheet::Right),
            number => Err(self.refused(number)),
        }
    }

    /// The number of grids that keep the puzzle and every mark, or `cap` if there
    /// are more. On a puzzle of size 7 or more without marks the search may take
    /// long.
    ///
    /// # Errors
    ///
    /// In this order: [`Refusal::Size`], [`Refusal::SizeLimit`] (never in the
    /// hall), [`Refusal::TargetLengths`], [`Refusal::Target`],
    /// [`Refusal::ListLimit`] (never in the hall), then for each mark
    /// [`Refusal::MarkSpare`], [`Refusal::MarkPlace`], [`Refusal::MarkValue`].
    pub fn count(
        self,
        size: usize,
        rows: &[u8],
        columns: &[u8],
        marks: &[u8],
        cap: u64,
    ) -> Result<u64, Refusal> {
        let mut number = 0;
        self.count_into(size, rows, columns, marks, cap, &mut number)?;
        Ok(number)
    }

    /// As [`Unit::count`], with the number written into `number`, which stays as
    /// it was where the call refuses.
    ///
    /// # Errors
    ///
    /// Those of [`Unit::count`].
    pub fn count_into(
        self,
        size: usize,
        rows: &[u8],
        columns: &[u8],
        marks: &[u8],
        cap: u64,
        number: &mut u64,
    ) -> Result<(), Refusal> {
        match ffi::count(self, size, rows, columns, marks, cap, number) {
            0 => Ok(()),
            number => Err(self.refused(number)),
        }
    }

    /// Whether no grid, one or more keep the puzzle and every mark. If there is
    /// one, the first is written into `cells`: going over the right and the left
    /// black of each row from the top, then over the digits from the greatest
    /// down, each in the rows from the top, that which stands further right where
    /// grids differ.
    ///
    /// # Errors
    ///
    /// Those of [`Unit::count`], then [`Refusal::CellsLength`].
    pub fn solve(
        self,
        size: usize,
        rows: &[u8],
        columns: &[u8],
        marks: &[u8],
        cells: &mut [u8],
    ) -> Result<Verdict, Refusal> {
        match ffi::solve(self, size, rows, columns, marks, cells) {
            100 => Ok(Verdict::Unsolvable),
            101 => Ok(Verdict::Unique),
            102 => Ok(Verdict::Multiple),
            number => Err(self.refused(number)),
        }
    }

    /// Writes into `table` what each cell can still be after the marks and one
    /// propagation: two bytes for each cell, row by row, the more significant
    /// first. Digit d is bit d of these 16; the left, right, upper and lower black
    /// are the bits size - 1 to size + 2. In a written table each cell has a
    /// candidate. Where a grid is left, the table is written and the rules determine
    /// it; one can be written although no grid is left.
    ///
    /// # Errors
    ///
    /// Those of [`Unit::count`], then [`Refusal::CellsLength`] if there are not
    /// exactly two bytes for each cell.
    pub fn candidates(
        self,
        size: usize,
        rows: &[u8],
        columns: &[u8],
        marks: &[u8],
        table: &mut [u8],
    ) -> Result<Candidates, Refusal> {
        match ffi::candidates(self, size, rows, columns, marks, table) {
            0 => Ok(Candidates::Written),
            100 => Ok(Candidates::Contradicted),
            number => Err(self.refused(number)),
        }
    }

    /// An unknown number means that library and bindings are of different
    /// versions.
    fn refused(self, number: u8) -> Refusal {
        Refusal::from_number(number, self).unwrap_or_else(|| {
            panic!("the library answered {number}, which these bindings do not know")
        })
    }
}
