//! Steps towards a smaller puzzle with fewer marks.

use inputs::Asked;
use rules::Mark;

use super::{Input, Rest};
use crate::simpler;

/// Smaller sizes first, then fewer marks, then lower numbers.
pub fn smaller<R: Rest>(input: &Input<R>) -> Vec<Input<R>> {
    let Input { asked, rest } = input;
    let mut simpler = smaller_sizes(asked);
    simpler.extend(fewer_marks(asked));
    simpler.extend(simpler::cut(asked, LISTS));
    simpler.extend(simpler::lowered_in(asked, LISTS));
    let with_its_rest = |smaller: Asked| Input {
        rest: rest.at_size(asked.size, smaller.size),
        asked: smaller,
    };
    let simpler_rests = rest.simpler(asked.size).into_iter().map(|rest| Input {
        asked: asked.clone(),
        rest,
    });
    simpler
        .into_iter()
        .map(with_its_rest)
        .chain(simpler_rests)
        .collect()
}

const LISTS: [simpler::List<Asked>; 3] = [
    |asked| &mut asked.marks,
    |asked| &mut asked.rows,
    |asked| &mut asked.columns,
];

/// The puzzle without one of its rows and one of its columns, or with the least
/// size above 9.
fn smaller_sizes(asked: &Asked) -> Vec<Asked> {
    let size = asked.size;
    if size > 10 {
        let asked = asked.clone();
        return vec![Asked { size: 10, ..asked }];
    }
    if !(3..=9).contains(&size) || asked.rows.len() != size || asked.columns.len() != size {
        return Vec::new();
    }
    (0..size * size)
        .map(|place| without(asked, place / size, place % size))
        .collect()
}

fn without(asked: &Asked, row: usize, column: usize) -> Asked {
    let size = asked.size - 1;
    let marks = asked.marks.chunks(2);
    Asked {
        size,
        rows: lowered_targets(asked.size, &asked.rows, row),
        columns: lowered_targets(asked.size, &asked.columns, column),
        marks: marks
            .flat_map(|mark| moved(asked.size, mark, row, column))
            .collect(),
    }
}

/// A good target stays good at the smaller size.
fn lowered_targets(size: usize, targets: &[u8], place: usize) -> Vec<u8> {
    let greatest = rules::greatest_target(size) as u8;
    let lower = rules::greatest_target(size - 1) as u8;
    let targets = simpler::line_without(targets, place).into_iter();
    let good = |target: u8| {
        if target <= greatest {
            target.min(lower)
        } else {
            target
        }
    };
    targets.map(good).collect()
}

/// The bytes of a mark when a row and a column have gone; none if its cell or its
/// digit has. A faulty mark stays as it is.
fn moved(size: usize, bytes: &[u8], row: usize, column: usize) -> Vec<u8> {
    let word = rules::marks_of(bytes)[0];
    if rules::marks_refusal(size, &[word]).is_some() {
        return bytes.to_vec();
    }
    let mut mark = Mark::unpack(word);
    let has_gone = usize::from(mark.value) == size - 2;
    if mark.row == row || mark.column == column || has_gone {
        return Vec::new();
    }
    mark.row -= usize::from(mark.row > row);
    mark.column -= usize::from(mark.column > column);
    mark.pack().to_be_bytes().to_vec()
}

/// Half of the marks, and the list without one of them.
fn fewer_marks(asked: &Asked) -> Vec<Asked> {
    let marks: Vec<&[u8]> = asked.marks.chunks(2).collect();
    let with = |marks: Vec<u8>| Asked {
        marks,
        ..asked.clone()
    };
    let half = marks.len() / 2;
    let halves = [&marks[..half], &marks[half..]]
        .into_iter()
        .filter(|part| part.len() < marks.len())
        .map(|part| with(part.concat()));
    let one_less = (0..marks.len())
        .map(|place| with([&marks[..place], &marks[place + 1..]].concat().concat()));
    halves.chain(one_less).collect()
}
