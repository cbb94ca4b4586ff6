//! The answers of the solver agree with each other and with the rules on drawn
//! puzzles with drawn marks.

use rand::{Rng, SeededRng};
use reference::{Limit, Solved, candidates, count_within, random_grid, solve_within, target_sums};
use rules::{Mark, marks_refusal, satisfies};

const CASES: usize = 3000;
const NODES: Limit = Limit::Nodes(300);

#[test]
fn answers_agree_with_each_other() {
    let mut rng = SeededRng::new(11);
    let mut finished = 0;
    for _ in 0..CASES {
        let size = 2 + rng.below(8);
        let cells = random_grid(size, &mut rng);
        let (rows, columns) = target_sums(size, &cells).expect("a grid has sums");
        let marks = any_marks(&mut rng, size);
        finished += usize::from(agree(size, &rows, &columns, &marks, &cells));
    }
    assert!(finished > CASES / 2, "only {finished} searches finished");
}

/// Whether the search finished within its limit.
fn agree(size: usize, rows: &[u8], columns: &[u8], marks: &[u16], drawn: &[u8]) -> bool {
    let Some(solved) = solve_within(NODES, size, rows, columns, marks) else {
        return false;
    };
    let count = count_within(NODES, size, rows, columns, marks, 2);
    let table = candidates(size, rows, columns, marks);
    let is_grid = |cells: &[u8]| satisfies(size, rows, columns, marks, cells);
    match &solved {
        Solved::Unsolvable => assert!(count == Some(0) && !is_grid(drawn)),
        Solved::Unique(cells) => assert!(count == Some(1) && is_grid(cells) && table.is_some()),
        Solved::Multiple(cells) => assert!(count == Some(2) && is_grid(cells) && table.is_some()),
    }
    if let (Solved::Unique(cells), true) = (&solved, is_grid(drawn)) {
        assert_eq!(cells, drawn);
    }
    true
}

/// Up to six marks; they may repeat and contradict each other.
fn any_marks(rng: &mut SeededRng, size: usize) -> Vec<u16> {
    let any_mark = |rng: &mut SeededRng| {
        let mark = Mark {
            rejected: rng.below(3) != 0,
            row: rng.below(size),
            column: rng.below(size),
            value: 1 + rng.below(11) as u8,
            spare: 0,
        };
        mark.pack()
    };
    let marks = (0..rng.below(7)).map(|_| any_mark(rng));
    marks
        .filter(|&mark| marks_refusal(size, &[mark]).is_none())
        .collect()
}
