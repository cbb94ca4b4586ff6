//! Target sums.

use std::fmt;

use inputs::{Rng, SeededRng};
use rules::{BLACK, EMPTY, Sums, Unit};

use crate::engine::Engine;
use crate::guarded::Guarded;
use crate::harness::{Answer, Call, Family, Label, refused};
use crate::simpler;

pub struct TargetSums;

#[derive(Clone, Debug)]
pub struct Input {
    pub size: usize,
    pub cells: Vec<u8>,
    pub rows_len: usize,
    pub columns_len: usize,
}

impl Input {
    /// Cells with buffers of the right lengths.
    pub fn of(size: usize, cells: Vec<u8>) -> Self {
        Self {
            size,
            cells,
            rows_len: size,
            columns_len: size,
        }
    }
}

impl fmt::Display for Input {
    fn fmt(&self, f: &mut fmt::Formatter<'_>) -> fmt::Result {
        write!(
            f,
            "size {}, cells [{}] ({} bytes), buffers of {} and {} bytes",
            self.size,
            simpler::shown(self.size, &self.cells),
            self.cells.len(),
            self.rows_len,
            self.columns_len
        )
    }
}

impl Call for TargetSums {
    type Input = Input;

    const NAME: &'static str = "target sums";

    fn families() -> Vec<Family<Input>> {
        vec![
            Family::whole("size 2, all over 0 1 2 3 254 255", || {
                inputs::all_lists(4, &[0, 1, 2, 3, 254, 255]).map(|cells| Input::of(2, cells))
            }),
            Family::whole("size 3, all over 0 1 2 255", || {
                inputs::all_lists(9, &[0, 1, 2, 255]).map(|cells| Input::of(3, cells))
            }),
            Family::whole("first row or column of size 5", one_line_of_size_5),
            Family::whole("limits", limits),
            Family::drawn("grids", |rng| drawn(rng, inputs::grid)),
            Family::drawn("damaged grids", |rng| {
                let mut input = drawn(rng, inputs::grid);
                inputs::damage(rng, &mut input.cells);
                input
            }),
            Family::drawn("random cells", |rng| drawn(rng, inputs::random_cells)),
            Family::drawn("two blacks in each line", |rng| {
                drawn(rng, inputs::blacks_of_a_grid)
            }),
            Family::drawn("sums near 255", |rng| drawn(rng, inputs::sums_near_255)),
            Family::drawn("wrong lengths and sizes", wrong_lengths),
        ]
    }

    fn check(engine: &dyn Engine, input: &Input) -> Result<Answer, String> {
        let in_unit = |unit| {
            let rules = rules::target_sums(
                unit,
                input.size,
                &input.cells,
                input.rows_len,
                input.columns_len,
            );
            against_rules(engine, unit, input, &rules)
                .map_err(|difference| format!("{difference}\n  {}", rust_says(input)))?;
            Ok::<_, String>(rules)
        };
        let classroom = in_unit(Unit::CLASSROOM)?.err();
        let label = match in_unit(Unit::HALL)? {
            Err(number @ (1 | 2 | 7)) => refused(number),
            rules => against_rust(input, &rules)?,
        };
        Ok(Answer::of(label, classroom))
    }

    fn simpler(input: &Input) -> Vec<Input> {
        let mut simpler = smaller_sizes(input);
        simpler.extend(nearer_lengths(input));
        simpler.extend(simpler::lowered(&input.cells).map(|cells| Input {
            cells,
            ..input.clone()
        }));
        simpler
    }
}

/// The engine's number and every byte it could have touched.
fn against_rules(
    engine: &dyn Engine,
    unit: Unit,
    input: &Input,
    rules: &Result<Sums, u8>,
) -> Result<(), String> {
    let mut cells = Guarded::holding(&input.cells);
    let mut rows = Guarded::patterned(input.rows_len);
    let mut columns = Guarded::patterned(input.columns_len);
    let number = engine.target_sums(
        unit,
        input.size,
        cells.content(),
        rows.content(),
        columns.content(),
    );

    let (expected, written) = match rules {
        Ok((row_sums, column_sums)) => (0, rows.holds(row_sums) && columns.holds(column_sums)),
        Err(number) => (*number, rows.is_untouched() && columns.is_untouched()),
    };
    if number != expected {
        Err(format!(
            "{unit:?}: the engine answers {number}, the rules give {rules:?}"
        ))
    } else if !written {
        let (rows, columns) = (rows.content(), columns.content());
        Err(format!(
            "{unit:?}: the engine answers {number} and leaves rows {rows:?}, columns {columns:?} or bytes \
             beside them changed; the rules give {rules:?}"
        ))
    } else if !cells.is_untouched() {
        Err(format!(
            "{unit:?}: the engine answers {number} and changed the cells"
        ))
    } else {
        Ok(())
    }
}

/// The published Rust agrees, or differs as docs/DIFFERENCES.md says.
fn against_rust(input: &Input, rules: &Result<Sums, u8>) -> Result<Label, String> {
    let rust = reference::target_sums(input.size, &input.cells);
    let documented = stops_at_overflow(input.size, &input.cells);
    match (rules, &rust) {
        (Err(9), Err(10)) if documented => Ok("refused 9 (Rust 10)"),
        _ if documented || *rules != rust => {
            Err(format!("the rules give {rules:?}, the Rust gives {rust:?}"))
        }
        (Ok(_), _) => Ok("summed"),
        (Err(number), _) => Ok(refused(*number)),
    }
}

/// For the report of a difference.
fn rust_says(input: &Input) -> String {
    if (2..=9).contains(&input.size) && input.cells.len() == input.size * input.size {
        let rust = reference::target_sums(input.size, &input.cells);
        format!("on these cells the Rust gives {rust:?}")
    } else {
        "the Rust cannot be called with this size or these cells".to_string()
    }
}

/// The documented difference: in the first line with a fault, the numbers before
/// an empty cell already add up to more than 255.
fn stops_at_overflow(size: usize, cells: &[u8]) -> bool {
    let rows = cells.chunks_exact(size).map(<[u8]>::to_vec);
    let columns = inputs::transposed(size, cells);
    let columns = columns.chunks_exact(size).map(<[u8]>::to_vec);
    rows.chain(columns)
        .find(|line| rules::line_sum(line).is_err())
        .is_some_and(|line| rules::line_sum(&line) == Err(9) && overflows_before_empty(&line))
}

fn overflows_before_empty(line: &[u8]) -> bool {
    let read = line
        .iter()
        .skip_while(|&&cell| cell != BLACK)
        .skip(1)
        .take_while(|&&cell| cell != EMPTY && cell != BLACK);
    read.map(|&cell| u32::from(cell)).sum::<u32>() > 255
}

fn drawn(rng: &mut SeededRng, cells: fn(&mut SeededRng, usize) -> Vec<u8>) -> Input {
    let size = inputs::any_size(rng);
    Input::of(size, cells(rng, size))
}

/// Every line over a few bytes as the first row of a grid, and transposed. There
/// the line is read if it has its blacks at the ends; else an earlier row is
/// refused.
fn one_line_of_size_5() -> impl Iterator<Item = Input> {
    inputs::all_lists(5, &[0, 1, 3, 128, 252, 254, BLACK]).flat_map(|line| {
        let mut rows = line.clone();
        for row in 1..5 {
            rows.extend((0..5).map(|c| if c == row || c == row - 1 { BLACK } else { 1 }));
        }
        let columns = inputs::transposed(5, &rows);
        [Input::of(5, rows), Input::of(5, columns)]
    })
}

/// All lengths around each boundary with all others, on good and plain cells.
fn limits() -> impl Iterator<Item = Input> {
    let accepted = (2..=9).map(|size| (size, size));
    let refused = inputs::OTHER_SIZES
        .into_iter()
        .flat_map(|size| [0, 1, 2, 3, 4, 5, 9, 10].map(|length| (size, length)));
    accepted.chain(refused).flat_map(|(size, length)| {
        inputs::three_lengths_around(length).flat_map(move |lengths| {
            let [cells_len, rows_len, columns_len] = lengths;
            contents(length, cells_len).map(|cells| Input {
                size,
                cells,
                rows_len,
                columns_len,
            })
        })
    })
}

/// A grid of this size cut or filled up to the length, and two plain fillings.
fn contents(size: usize, length: usize) -> [Vec<u8>; 3] {
    let mut grid = match size {
        2..=9 => inputs::grid(&mut SeededRng::new(size as u64), size),
        _ => Vec::new(),
    };
    grid.resize(length, BLACK);
    [grid, vec![EMPTY; length], vec![BLACK; length]]
}

/// A drawn grid with one to three of its lengths or its size changed.
fn wrong_lengths(rng: &mut SeededRng) -> Input {
    let mut input = drawn(rng, inputs::grid);
    for _ in 0..=rng.below(3) {
        match rng.below(4) {
            0 => input.rows_len = rng.below(12),
            1 => input.columns_len = rng.below(12),
            2 => input.cells.resize(rng.below(102), BLACK),
            _ => input.size = rng.below(12),
        }
    }
    input
}

/// The input without one of its rows and one of its columns.
fn smaller_sizes(input: &Input) -> Vec<Input> {
    let size = input.size;
    if !(3..=9).contains(&size) || input.cells.len() != size * size {
        return Vec::new();
    }
    (0..size * size)
        .map(|place| Input {
            size: size - 1,
            cells: simpler::without(size, &input.cells, place / size, place % size),
            rows_len: input.rows_len.saturating_sub(1),
            columns_len: input.columns_len.saturating_sub(1),
        })
        .collect()
}

/// Shorter cells, and buffers nearer to the right length.
fn nearer_lengths(input: &Input) -> Vec<Input> {
    let exact = input.size.min(10);
    let mut nearer = Vec::new();
    if input.size > 10 {
        nearer.push(Input {
            size: 10,
            ..input.clone()
        });
    }
    for length in [
        exact * exact,
        input.cells.len() / 2,
        input.cells.len().saturating_sub(1),
    ] {
        if length < input.cells.len() {
            let cells = input.cells[..length].to_vec();
            nearer.push(Input {
                cells,
                ..input.clone()
            });
        }
    }
    if input.rows_len != exact {
        nearer.push(Input {
            rows_len: exact,
            ..input.clone()
        });
    }
    if input.columns_len != exact {
        nearer.push(Input {
            columns_len: exact,
            ..input.clone()
        });
    }
    nearer
}
