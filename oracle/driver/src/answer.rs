use std::io::{self, BufRead, Write};

use reference::Solved;
use rules::{BLACK, LinePuzzle};

/// What an answer with a grid begins with if there are others.
pub const MULTIPLE: &str = "multiple ";

/// Reads lines to the end of the input and writes one answer for each, also for a last
/// one that has no line end.
pub fn answer_lines(mut input: impl BufRead, mut output: impl Write) -> io::Result<()> {
    let mut line = Vec::new();
    while input.read_until(b'\n', &mut line)? > 0 {
        let content = line.strip_suffix(b"\n").unwrap_or(&line);
        writeln!(output, "{}", answer(content))?;
        line.clear();
    }
    output.flush()
}

/// The answer to a line; neither has a line end.
fn answer(line: &[u8]) -> String {
    match rules::line_puzzle(line) {
        Ok(puzzle) => solved(&puzzle),
        Err(number) => format!("refused {number}"),
    }
}

fn solved(puzzle: &LinePuzzle) -> String {
    let LinePuzzle {
        size,
        rows,
        columns,
    } = puzzle;
    match reference::solve(*size, rows, columns, &[]) {
        Solved::Unsolvable => "unsolvable".to_string(),
        Solved::Unique(cells) => format!("unique {}", shown(*size, &cells)),
        Solved::Multiple(cells) => format!("{MULTIPLE}{}", shown(*size, &cells)),
    }
}

/// A grid: rows joined by `/`, blacks as `#`.
pub fn shown(size: usize, cells: &[u8]) -> String {
    let mut shown = String::new();
    for (place, &cell) in cells.iter().enumerate() {
        if place > 0 && place % size == 0 {
            shown.push('/');
        }
        shown.push(match cell {
            BLACK => '#',
            digit => char::from(b'0' + digit),
        });
    }
    shown
}
