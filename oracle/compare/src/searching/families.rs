//! The inputs of the searching calls.

use inputs::{Asked, Puzzle, Rng, SeededRng};
use rules::Mark;

use super::{Input, Rest};
use crate::harness::Family;

pub fn families<R: Rest>() -> Vec<Family<Input<R>>> {
    vec![
        Family::whole("limits", limits),
        Family::whole("sizes 0 to 11, up to 1,000 marks", unit_limits),
        Family::whole("faulty marks in a row", faulty_marks),
        Family::whole("size 2, targets 0 and 1, up to two marks", || {
            with_marks(inputs::all_lists(4, &[0, 1]), 0..=2)
        }),
        Family::whole("size 3, all targets, up to two marks", || {
            with_marks(inputs::all_lists(6, &[0, 1]), 0..=2)
        }),
        Family::whole("size 4, all targets", every_puzzle_of_size_4),
        Family::whole("every mark word, each size", every_word),
        Family::drawn("targets of grids, marks", |rng| {
            drawn(rng, inputs::of_a_grid)
        }),
        Family::drawn("grids pinned by marks", |rng| {
            drawn(rng, inputs::of_a_pinned_grid)
        }),
        Family::drawn("random targets, marks", |rng| {
            drawn(rng, inputs::of_random_targets)
        }),
        Family::drawn("damaged inputs", damaged),
    ]
}

/// All these targets of a small size with every list of so many marks.
fn with_marks<R: Rest>(
    targets: impl Iterator<Item = Vec<u8>> + 'static,
    lengths: std::ops::RangeInclusive<u32>,
) -> impl Iterator<Item = Input<R>> {
    targets.flat_map(move |targets| {
        let size = targets.len() / 2;
        let marks = marks_of_size(size);
        lengths
            .clone()
            .flat_map(move |length| lists_of(&marks, length))
            .flat_map(move |marks| with_each(&asked(&targets, &marks), R::few(size)))
    })
}

/// Without marks: the smallest size at which the Rust's tables are not all those of the
/// rules.
fn every_puzzle_of_size_4<R: Rest>() -> impl Iterator<Item = Input<R>> {
    let rest = R::few(4)[0];
    inputs::all_lists(8, &[0, 1, 2, 3]).map(move |targets| Input {
        asked: asked(&targets, &[]),
        rest,
    })
}

/// Row targets and column targets in one list.
fn asked(targets: &[u8], marks: &[u16]) -> Asked {
    let (rows, columns) = targets.split_at(targets.len() / 2);
    let puzzle = Puzzle {
        size: rows.len(),
        rows: rows.to_vec(),
        columns: columns.to_vec(),
    };
    Asked::of(puzzle, marks)
}

fn with_each<R: Rest>(asked: &Asked, rests: Vec<R>) -> impl Iterator<Item = Input<R>> + use<R> {
    let asked = asked.clone();
    rests.into_iter().map(move |rest| Input {
        asked: asked.clone(),
        rest,
    })
}

fn marks_of_size(size: usize) -> Vec<u16> {
    let accepted = |&word: &u16| rules::marks_refusal(size, &[word]).is_none();
    (0..=u16::MAX).filter(accepted).collect()
}

/// Every list of so many of these marks.
fn lists_of(marks: &[u16], length: u32) -> impl Iterator<Item = Vec<u16>> + use<> {
    let marks = marks.to_vec();
    (0..marks.len().pow(length)).map(move |index| {
        let digit = |place| index / marks.len().pow(place) % marks.len();
        (0..length).map(|place| marks[digit(place)]).collect()
    })
}

/// Each of the 65,536 words as the only mark of a puzzle that is soon searched.
fn every_word<R: Rest>() -> impl Iterator<Item = Input<R>> {
    (2..=9).flat_map(|size| {
        let puzzle = inputs::short_puzzle(size);
        let rest = R::few(size)[0];
        (0..=u16::MAX).map(move |word| Input {
            asked: Asked::of(puzzle.clone(), &[word]),
            rest,
        })
    })
}

/// All lengths around each boundary with all others.
fn limits<R: Rest>() -> impl Iterator<Item = Input<R>> {
    let accepted = (2..=9).map(|size| (size, size));
    let refused = inputs::OTHER_SIZES
        .into_iter()
        .flat_map(|size| [0, 2, 3, 9, 10].map(|length| (size, length)));
    accepted.chain(refused).flat_map(|(size, length)| {
        let good = short_targets(length);
        inputs::two_lengths_around(length)
            .flat_map(move |lengths| of_lengths(size, &good, lengths))
            .flat_map(move |asked| with_each(&asked, R::around(length)))
    })
}

/// Lists around the limit of a classroom and far beyond, whole and with half a mark
/// behind, with each choice of the faults before and behind the two questions of a
/// unit.
fn unit_limits<R: Rest>() -> impl Iterator<Item = Input<R>> {
    (0..=11).flat_map(|size| {
        [0, 39, 40, 41, 1000]
            .into_iter()
            .flat_map(move |length| unit_lists(size, length))
            .flat_map(move |marks| unit_puzzles(size, &marks))
            .flat_map(move |asked| with_each(&asked, R::around(size)))
    })
}

/// A list of so many good marks, the same with a fault in its first or its last, and
/// each of these with half a mark behind.
fn unit_lists(size: usize, length: usize) -> Vec<Vec<u8>> {
    let good = vec![Mark::rejecting(0, 0, 8, 0); length];
    let mut lists = vec![good.clone()];
    for place in [0, length.saturating_sub(1)] {
        let mut faulty = good.clone();
        if let Some(mark) = faulty.get_mut(place) {
            *mark = Mark::rejecting(size, 0, 12, 0);
            lists.push(faulty);
        }
    }
    let whole = lists.iter().map(|list| rules::word_bytes(list));
    let half = whole.clone().map(|bytes| [bytes, vec![0]].concat());
    whole.chain(half).collect()
}

/// Good targets, one that is too large, a row too few, and both faults.
fn unit_puzzles(size: usize, marks: &[u8]) -> Vec<Asked> {
    let [rows, columns] = short_targets(size);
    let mut large = columns.clone();
    large.iter_mut().take(1).for_each(|target| *target = 29);
    let short = &rows[size.min(1)..];
    [
        (&rows[..], &columns),
        (&rows[..], &large),
        (short, &columns),
        (short, &large),
    ]
    .map(|(rows, columns)| Asked {
        size,
        rows: rows.to_vec(),
        columns: columns.clone(),
        marks: marks.to_vec(),
    })
    .to_vec()
}

/// Targets that are soon searched, as many as there are lines.
fn short_targets(length: usize) -> [Vec<u8>; 2] {
    match length {
        2..=9 => {
            let puzzle = inputs::short_puzzle(length);
            [puzzle.rows, puzzle.columns]
        }
        _ => [vec![0; length], vec![0; length]],
    }
}

/// Targets cut or filled up to these lengths, with and without one that is too
/// large, a mark and half a mark.
fn of_lengths(size: usize, good: &[Vec<u8>; 2], lengths: [usize; 2]) -> Vec<Asked> {
    let resized = |line: usize| {
        let mut targets = good[line].clone();
        targets.resize(lengths[line], 0);
        targets
    };
    let (rows, columns) = (resized(0), resized(1));
    let mut large = columns.clone();
    large.iter_mut().take(1).for_each(|target| *target = 29);
    let marks = [&[][..], &[0x80, 0x48], &[0x80, 0x48, 0x00]];
    let with = |columns: &[u8], marks: &[u8]| Asked {
        size,
        rows: rows.clone(),
        columns: columns.to_vec(),
        marks: marks.to_vec(),
    };
    marks
        .into_iter()
        .flat_map(|marks| [with(&columns, marks), with(&large, marks)])
        .collect()
}

/// Every list of up to three marks that are good, have one fault, or have that
/// fault and all later ones; a half mark may follow.
fn faulty_marks<R: Rest>() -> impl Iterator<Item = Input<R>> {
    (2..=9).flat_map(|size| {
        let puzzle = inputs::short_puzzle(size);
        let marks = one_of_each(size);
        (0..=3)
            .flat_map(move |length| lists_of(&marks, length))
            .flat_map(move |marks| {
                let whole = Asked::of(puzzle.clone(), &marks);
                let mut half = whole.clone();
                half.marks.push(0);
                let both = [whole, half].into_iter();
                both.flat_map(move |asked| with_each(&asked, R::around(size)))
            })
    })
}

fn one_of_each(size: usize) -> Vec<u16> {
    let other_digit = size as u8 - 1;
    vec![
        Mark::rejecting(0, 0, 8, 0),
        Mark::rejecting(0, 0, 8, 4),
        Mark::rejecting(size, size, 15, 1),
        Mark::rejecting(0, size, 8, 0),
        Mark::rejecting(size, 0, 0, 0),
        Mark::rejecting(0, 0, if size == 9 { 0 } else { other_digit }, 0),
        Mark::rejecting(0, 0, 12, 0),
    ]
}

fn drawn<R: Rest>(rng: &mut SeededRng, asked: fn(&mut SeededRng, usize) -> Asked) -> Input<R> {
    let size = inputs::any_size(rng);
    Input {
        asked: asked(rng, size),
        rest: R::drawn(rng, size),
    }
}

/// A good input with one to three of its parts damaged.
fn damaged<R: Rest>(rng: &mut SeededRng) -> Input<R> {
    let mut input: Input<R> = drawn(rng, inputs::of_a_grid);
    for _ in 0..=rng.below(3) {
        if rng.below(4) == 0 {
            input.rest = R::damaged(rng);
        } else {
            inputs::damage_asked(rng, &mut input.asked);
        }
    }
    input
}
