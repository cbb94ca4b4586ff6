//! Marking a sheet.

use std::fmt;

use inputs::{Rng, SeededRng};
use rules::{BLACK, EMPTY, Unit};

use crate::engine::Engine;
use crate::guarded::Guarded;
use crate::harness::{Answer, Call, Family, Label, refused};
use crate::simpler;

pub struct MarkSheet;

#[derive(Clone, Debug)]
pub struct Input {
    pub size: usize,
    pub rows: Vec<u8>,
    pub columns: Vec<u8>,
    pub cells: Vec<u8>,
}

impl fmt::Display for Input {
    fn fmt(&self, f: &mut fmt::Formatter<'_>) -> fmt::Result {
        write!(
            f,
            "size {}, rows {:?}, columns {:?}, cells [{}] ({} bytes)",
            self.size,
            self.rows,
            self.columns,
            simpler::shown(self.size, &self.cells),
            self.cells.len()
        )
    }
}

impl Call for MarkSheet {
    type Input = Input;

    const NAME: &'static str = "mark sheet";

    fn families() -> Vec<Family<Input>> {
        vec![
            Family::whole("size 2, targets 0 to 2, all over 0 1 254 255", || {
                every_sheet(2, &[0, 1, 2], &[0, 1, 254, 255])
            }),
            Family::whole("size 3, all targets, all over 1 2 255", || {
                every_sheet(3, &[0, 1], &[1, 2, 255])
            }),
            Family::whole("size 3, own sums, all over 0 1 254 255", || {
                inputs::all_lists(9, &[0, 1, 254, 255]).map(|cells| with_own_sums(3, cells))
            }),
            Family::whole("limits", limits),
            Family::drawn("right sheets", right_sheet),
            Family::drawn("right sheets with one or two digits changed", |rng| {
                let mut input = right_sheet(rng);
                change_digits(rng, input.size, &mut input.cells);
                with_own_sums(input.size, input.cells)
            }),
            Family::drawn("rows right and columns not, or the reverse", |rng| {
                let size = inputs::any_size(rng);
                with_own_sums(size, right_one_way(rng, size))
            }),
            Family::drawn("damaged sheets", |rng| {
                let mut input = right_sheet(rng);
                inputs::damage(rng, &mut input.cells);
                input
            }),
            Family::drawn("one target changed", |rng| {
                let mut input = right_sheet(rng);
                let size = input.size;
                change_target(rng, size, &mut input.rows, &mut input.columns);
                input
            }),
            Family::drawn("sums with any digits", any_digits),
            Family::drawn("random targets and cells", random_sheet),
            Family::drawn("wrong lengths and sizes", wrong_lengths),
        ]
    }

    fn check(engine: &dyn Engine, input: &Input) -> Result<Answer, String> {
        let in_unit = |unit| {
            let (rows, columns) = (&input.rows, &input.columns);
            let rules = rules::mark_sheet(unit, input.size, rows, columns, &input.cells);
            against_rules(engine, unit, input, rules)?;
            Ok::<_, String>(rules)
        };
        let classroom = in_unit(Unit::CLASSROOM)?.err();
        let label = match in_unit(Unit::HALL)? {
            Err(number @ (1 | 2 | 7)) => refused(number),
            rules => against_rust(input, rules)?,
        };
        Ok(Answer::of(label, classroom))
    }

    fn simpler(input: &Input) -> Vec<Input> {
        let mut simpler = smaller_sizes(input);
        if input.size > 10 {
            simpler.push(Input {
                size: 10,
                ..input.clone()
            });
        }
        simpler.extend(simpler::cut(input, LISTS));
        simpler.extend(simpler::lowered_in(input, LISTS));
        simpler
    }
}

fn label(rules: Result<bool, u8>) -> Label {
    match rules {
        Ok(true) => "right",
        Ok(false) => "wrong",
        Err(number) => refused(number),
    }
}

/// The engine's number; none of the bytes may change.
fn against_rules(
    engine: &dyn Engine,
    unit: Unit,
    input: &Input,
    rules: Result<bool, u8>,
) -> Result<(), String> {
    let mut rows = Guarded::holding(&input.rows);
    let mut columns = Guarded::holding(&input.columns);
    let mut cells = Guarded::holding(&input.cells);
    let number = engine.mark_sheet(
        unit,
        input.size,
        rows.content(),
        columns.content(),
        cells.content(),
    );

    let expected = match rules {
        Ok(false) => 100,
        Ok(true) => 101,
        Err(number) => number,
    };
    if number != expected {
        Err(format!(
            "{unit:?}: the engine answers {number}, the rules give {expected}"
        ))
    } else if ![rows, columns, cells].iter().all(Guarded::is_untouched) {
        Err(format!(
            "{unit:?}: the engine answers {number} and changed its input"
        ))
    } else {
        Ok(())
    }
}

/// `try_new` decides on the targets, `count_solutions` on the sheet.
fn against_rust(input: &Input, rules: Result<bool, u8>) -> Result<Label, String> {
    let (size, rows, columns) = (input.size, &input.rows, &input.columns);
    let rust = if reference::accepts(size, rows, columns) {
        Ok(reference::is_right(size, rows, columns, &input.cells))
    } else {
        Err(3)
    };
    if rust == rules {
        Ok(label(rules))
    } else {
        Err(format!("the rules give {rules:?}, the Rust gives {rust:?}"))
    }
}

/// All targets and all cells over these bytes.
fn every_sheet(
    size: usize,
    targets: &'static [u8],
    bytes: &'static [u8],
) -> impl Iterator<Item = Input> {
    inputs::all_lists(2 * size, targets).flat_map(move |targets| {
        inputs::all_lists(size * size, bytes).map(move |cells| Input {
            size,
            rows: targets[..size].to_vec(),
            columns: targets[size..].to_vec(),
            cells,
        })
    })
}

/// A grid with its own sums.
fn right_sheet(rng: &mut SeededRng) -> Input {
    let size = inputs::any_size(rng);
    with_own_sums(size, inputs::grid(rng, size))
}

/// Puts another digit into one or two cells, so that a sheet keeps its blacks
/// and mostly has sums.
fn change_digits(rng: &mut SeededRng, size: usize, cells: &mut [u8]) {
    for _ in 0..=rng.below(2) {
        let place = rng.below(cells.len());
        if cells[place] != BLACK {
            cells[place] = 1 + rng.below(size - 2) as u8;
        }
    }
}

/// A sheet whose rows have every digit once and whose columns mostly have not,
/// or the other way round; all have two blacks.
fn right_one_way(rng: &mut SeededRng, size: usize) -> Vec<u8> {
    let mut cells = inputs::grid(rng, size);
    for row in cells.chunks_exact_mut(size) {
        let whites: Vec<usize> = (0..size).filter(|&c| row[c] != BLACK).collect();
        if !whites.is_empty() && rng.below(2) == 0 {
            let pick = |rng: &mut SeededRng| whites[rng.below(whites.len())];
            row.swap(pick(rng), pick(rng));
        }
    }
    if rng.below(2) == 0 {
        cells = inputs::transposed(size, &cells);
    }
    cells
}

/// Where the cells have no sums, all targets are 0.
fn with_own_sums(size: usize, cells: Vec<u8>) -> Input {
    let zeros = (vec![0; size], vec![0; size]);
    let (rows, columns) = rules::target_sums(Unit::HALL, size, &cells, size, size).unwrap_or(zeros);
    Input {
        size,
        rows,
        columns,
        cells,
    }
}

/// One target becomes another that is near it, near the greatest, or anything.
fn change_target(rng: &mut SeededRng, size: usize, rows: &mut [u8], columns: &mut [u8]) {
    let line = if rng.below(2) == 0 { rows } else { columns };
    let place = rng.below(line.len());
    let greatest = rules::greatest_target(size) as u8;
    line[place] = match rng.below(4) {
        0 => line[place].wrapping_add(1),
        1 => line[place].wrapping_sub(1),
        2 => greatest + rng.below(2) as u8,
        _ => rng.next_u64() as u8,
    };
}

/// Two blacks in each line and sums that often stay within the targets' range,
/// with digits that repeat themselves.
fn any_digits(rng: &mut SeededRng) -> Input {
    let size = inputs::any_size(rng);
    let mut cells = inputs::grid(rng, size);
    for cell in cells.iter_mut().filter(|cell| **cell != BLACK) {
        *cell = rng.below(4) as u8;
    }
    if rng.below(3) != 0 {
        fill_between(size, &mut cells);
    }
    with_own_sums(size, cells)
}

/// Puts a 1 into every empty cell.
fn fill_between(size: usize, cells: &mut [u8]) {
    for cell in &mut cells[..size * size] {
        *cell = (*cell).max(1);
    }
}

fn random_sheet(rng: &mut SeededRng) -> Input {
    let size = inputs::any_size(rng);
    let most = rules::greatest_target(size) + 1 + rng.below(20) / 19;
    let targets = |rng: &mut SeededRng| (0..size).map(|_| rng.below(most) as u8).collect();
    Input {
        size,
        rows: targets(rng),
        columns: targets(rng),
        cells: inputs::random_cells(rng, size),
    }
}

/// A right sheet with one to three of its lengths or its size changed, and
/// sometimes a target too large as well, for the order of the refusals.
fn wrong_lengths(rng: &mut SeededRng) -> Input {
    let mut input = right_sheet(rng);
    for _ in 0..=rng.below(3) {
        match rng.below(5) {
            0 => input.rows.resize(rng.below(12), 0),
            1 => input.columns.resize(rng.below(12), 0),
            2 => input.cells.resize(rng.below(102), BLACK),
            3 => input.size = rng.below(12),
            _ => raise_one(rng, &mut input.rows),
        }
    }
    input
}

fn raise_one(rng: &mut SeededRng, targets: &mut [u8]) {
    if !targets.is_empty() {
        targets[rng.below(targets.len())] = 29 + rng.below(227) as u8;
    }
}

/// All lengths around each boundary with all others, and each target at its
/// greatest and one above.
fn limits() -> impl Iterator<Item = Input> {
    let accepted = (2..=9).map(|size| (size, size));
    let refused = inputs::OTHER_SIZES
        .into_iter()
        .flat_map(|size| [0, 2, 3, 4, 5, 10].map(|length| (size, length)));
    accepted
        .chain(refused)
        .flat_map(|(size, length)| around(size, length))
        .chain((2..=9).flat_map(targets_at_the_limit))
}

fn around(size: usize, length: usize) -> impl Iterator<Item = Input> {
    inputs::three_lengths_around(length).flat_map(move |[cells_len, rows_len, columns_len]| {
        [0, 29, 255].map(|target| Input {
            size,
            rows: vec![0; rows_len],
            columns: vec![target; columns_len],
            cells: vec![BLACK; cells_len],
        })
    })
}

/// Each target in turn, the others at the greatest.
fn targets_at_the_limit(size: usize) -> impl Iterator<Item = Input> {
    let greatest = rules::greatest_target(size) as u8;
    (0..2 * size).flat_map(move |place| {
        [greatest, greatest + 1, 127, 128, 254, 255].map(|target| {
            let mut rows = vec![greatest; 2 * size];
            rows[place] = target;
            Input {
                size,
                columns: rows.split_off(size),
                rows,
                cells: vec![EMPTY; size * size],
            }
        })
    })
}

/// The input without one of its rows and one of its columns.
fn smaller_sizes(input: &Input) -> Vec<Input> {
    let size = input.size;
    let whole = input.rows.len() == size && input.columns.len() == size;
    if !(3..=9).contains(&size) || !whole || input.cells.len() != size * size {
        return Vec::new();
    }
    (0..size * size)
        .map(|place| Input {
            size: size - 1,
            rows: simpler::line_without(&input.rows, place / size),
            columns: simpler::line_without(&input.columns, place % size),
            cells: simpler::without(size, &input.cells, place / size, place % size),
        })
        .collect()
}

const LISTS: [simpler::List<Input>; 3] = [
    |input| &mut input.cells,
    |input| &mut input.rows,
    |input| &mut input.columns,
];
