//! What the records of candidates, count and solve have in common.

use inputs::{Asked, Puzzle, Rng, SeededRng};
use reference::Limit;
use rules::{Mark, Unit};

use crate::Call;
use crate::record::{Record, of_each_kind, pattern};

/// Searches are short, since the replay runs them all each time.
pub const LIMIT: Limit = Limit::Nodes(200);

/// Enough to meet every answer of every size.
const DRAWS: usize = 120;

/// Records of a call on drawn inputs and on the sample sheets of the requirements;
/// `record` gives none where the search is too long. The first byte of what it
/// gives is the kind of answer, of which each size gets up to `of_each`.
pub fn answered(
    call: Call,
    of_each: usize,
    record: impl Fn(&mut SeededRng, &Asked) -> Option<(u8, Record)>,
) -> Vec<Record> {
    let mut records = Vec::new();
    for size in 2..=9 {
        let mut rng = SeededRng::new(1000 * u64::from(call.tag()) + size as u64);
        let draw = |rng: &mut SeededRng| {
            let asked = drawn(rng, size);
            record(rng, &asked)
        };
        records.extend(of_each_kind(&mut rng, DRAWS, of_each, draw));
    }
    let mut rng = SeededRng::new(u64::from(call.tag()));
    let named = named().into_iter();
    records.extend(named.filter_map(|asked| Some(record(&mut rng, &asked)?.1)));
    records
}

/// Up to four marks, or so many that the grid is pinned.
fn drawn(rng: &mut SeededRng, size: usize) -> Asked {
    let mut asked = match rng.below(4) {
        0 => return inputs::of_a_pinned_grid(rng, size),
        1 => inputs::of_random_targets(rng, size),
        _ => inputs::of_a_grid(rng, size),
    };
    asked.marks.truncate(2 * rng.below(5));
    asked
}

/// Puzzles and marks of the requirements, two puzzles whose arrangements only end cells
/// would keep alive, and those without a grid in which no contradiction is seen.
fn named() -> Vec<Asked> {
    let mut named = vec![
        two_grids(&[]),
        two_grids(&[0x0008]),
        two_grids(&[0x8008]),
        two_grids(&[0x0008, 0x0008]),
        two_grids(&[0x0008, 0x8008]),
        two_grids(&[0x0008, 0x0108]),
        puzzle(&[1, 0, 0], &[1, 0, 0], &[]),
        puzzle(&[1, 1, 0], &[0, 1, 0], &[]),
        puzzle(&[3; 4], &[0, 1, 2, 3], &[]),
        puzzle(&[1, 1, 0, 0], &[0; 4], &[]),
        puzzle(&[2, 0, 4, 4, 0], &[3, 1, 6, 3, 0], &[]),
    ];
    named.extend(without_a_grid());
    named
}

/// Puzzles without a grid that still have a table.
pub fn without_a_grid() -> Vec<Asked> {
    vec![
        puzzle(&[0, 2, 5, 0, 0], &[0, 0, 0, 2, 0], &[]),
        puzzle(&[1, 2, 0, 0], &[1, 0, 0, 0], &[0x9090]),
    ]
}

/// The puzzle of the requirements that has two grids.
pub fn two_grids(marks: &[u16]) -> Asked {
    puzzle(&[0, 1, 0], &[0, 1, 0], marks)
}

fn puzzle(rows: &[u8], columns: &[u8], marks: &[u16]) -> Asked {
    let (rows, columns) = (rows.to_vec(), columns.to_vec());
    let puzzle = Puzzle {
        size: rows.len(),
        rows,
        columns,
    };
    Asked::of(puzzle, marks)
}

/// Inputs that are refused for their size, lengths, targets or marks, each with
/// all later faults as well.
pub fn refused() -> Vec<Asked> {
    let mut refused: Vec<Asked> = (2..=9).flat_map(refused_at).collect();
    for (size, length) in [(0, 0), (1, 1), (10, 10), (255, 3)] {
        refused.push(Asked {
            size,
            rows: vec![0; length],
            columns: vec![255; length],
            marks: vec![0xFF],
        });
    }
    refused
}

fn refused_at(size: usize) -> Vec<Asked> {
    let Puzzle { rows, columns, .. } = inputs::short_puzzle(size);
    let above = vec![rules::greatest_target(size) as u8 + 1; size];
    let place = Mark::rejecting(size, 0, 12, 0);
    let faulty = rules::word_bytes(&[place]);
    let with = |rows: &[u8], columns: &[u8], marks: &[u8]| Asked {
        size,
        rows: rows.to_vec(),
        columns: columns.to_vec(),
        marks: marks.to_vec(),
    };
    let with_marks = |marks: &[u16]| with(&rows, &columns, &rules::word_bytes(marks));
    let good = Mark::rejecting(0, 0, 8, 0);
    let mut half = with_marks(&[good]);
    half.marks.push(0);
    vec![
        with(&rows[1..], &above, &faulty),
        with(&above, &[&columns[..], &[0]].concat(), &faulty),
        with(&above, &columns, &faulty),
        with(&rows, &above, &faulty),
        with_marks(&[good, Mark::rejecting(size, size, 0, 1), place]),
        half,
        with_marks(&[place, Mark::rejecting(0, 0, 0, 1)]),
        with_marks(&[Mark::rejecting(0, 0, 12, 0), Mark::rejecting(0, 0, 0, 1)]),
    ]
}

/// As `rules::solve_refusal`.
type Refusal = fn(Unit, usize, &[u8], &[u8], &[u8], usize) -> Option<u8>;

/// Records of a call with so many bytes for each cell: refused for their puzzle
/// or marks with a buffer that is too short as well, and for the buffer alone.
pub fn refused_with_room(call: Call, each: usize, refusal: Refusal) -> Vec<Record> {
    let exact = |asked: &Asked| each * asked.size.min(10).pow(2);
    let earlier = refused().into_iter().map(|asked| {
        let length = exact(&asked).saturating_sub(1);
        (asked, length)
    });
    let short = (2..=9).flat_map(|size| {
        let asked = Asked::of(inputs::short_puzzle(size), &[]);
        let exact = exact(&asked);
        [(asked.clone(), exact - 1), (asked, exact + 1)]
    });
    let record = |(asked, length): (Asked, usize)| {
        let Asked {
            size,
            rows,
            columns,
            marks,
        } = &asked;
        let number = refusal(Unit::HALL, *size, rows, columns, marks, length).expect("a refusal");
        ended(begun(call, &asked), length, number, None)
    };
    earlier.chain(short).map(record).collect()
}

/// The fields that all records of these calls begin with.
pub fn begun(call: Call, asked: &Asked) -> Record {
    Record::of(call)
        .number(asked.size)
        .field(&asked.rows)
        .field(&asked.columns)
        .field(&asked.marks)
}

/// A whole record of a call with a buffer of `length` bytes, which holds
/// `written` afterwards or stays as it was.
pub fn ended(record: Record, length: usize, answer: u8, written: Option<&[u8]>) -> Record {
    let before = pattern(length);
    record
        .field(&before)
        .number(answer.into())
        .field(written.unwrap_or(&before))
}
