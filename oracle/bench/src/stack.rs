//! How much stack the searching calls take. They call themselves once for each
//! candidate that is taken on the way to a grid.

use std::fs::{File, OpenOptions};
use std::hint::black_box;
use std::io;
use std::os::unix::fs::FileExt;
use std::thread;

use inputs::Puzzle;

/// The stack of a thread unless it asks for another.
const THREAD: usize = 2 << 20;

/// The part of it that is painted: below the frames that paint, above the end.
const PAINTED: std::ops::Range<usize> = 8 << 10..THREAD - (256 << 10);

const PAINT: u8 = 0xC7;

/// Prints the deepest use of count and of solve over these puzzles.
pub fn run(puzzles: &[Puzzle]) {
    for (name, call) in CALLS {
        let deepest = puzzles
            .iter()
            .map(|puzzle| (used(puzzle, call), puzzle))
            .max_by_key(|(bytes, _)| *bytes);
        if let Some((bytes, puzzle)) = deepest {
            println!(
                "{name}: {bytes} bytes at most in {} puzzles, in {puzzle:?}",
                puzzles.len()
            );
        }
    }
}

type Searching = fn(&Puzzle);

const CALLS: [(&str, Searching); 2] = [("count", count), ("solve", solve)];

fn count(puzzle: &Puzzle) {
    let Puzzle {
        size,
        rows,
        columns,
    } = puzzle;
    let counted = doppelblock::count(*size, rows, columns, &[], 2);
    black_box(counted.expect("nothing is refused"));
}

fn solve(puzzle: &Puzzle) {
    let Puzzle {
        size,
        rows,
        columns,
    } = puzzle;
    let mut cells = [0; 81];
    let solved = doppelblock::solve(*size, rows, columns, &[], &mut cells[..size * size]);
    black_box(solved.expect("nothing is refused"));
}

/// The bytes of stack below its caller that `call` uses, in a thread of its own.
fn used(puzzle: &Puzzle, call: Searching) -> usize {
    let measured = || painted(|| call(puzzle)).expect("/proc/self/mem can be read and written");
    thread::scope(|scope| {
        let thread = thread::Builder::new().stack_size(THREAD);
        let thread = thread.spawn_scoped(scope, measured).expect("a thread");
        thread.join().expect("the call fits into the stack")
    })
}

/// Paints the free part of this thread's stack, runs `call`, and looks for the
/// deepest byte that has another colour. The memory goes through its file, so
/// that nothing here is unsafe.
fn painted(call: impl FnOnce()) -> io::Result<usize> {
    let here = 0u8;
    let top = &raw const here as usize;
    let floor = (top - PAINTED.end) as u64;
    let memory = OpenOptions::new()
        .read(true)
        .write(true)
        .open("/proc/self/mem")?;
    memory.write_all_at(&vec![PAINT; PAINTED.len()], floor)?;
    call();
    Ok(PAINTED.end - first_changed(&memory, floor)?)
}

/// How many painted bytes from the floor up are as they were.
fn first_changed(memory: &File, floor: u64) -> io::Result<usize> {
    let mut bytes = vec![0; PAINTED.len()];
    memory.read_exact_at(&mut bytes, floor)?;
    Ok(bytes.iter().take_while(|&&byte| byte == PAINT).count())
}

#[cfg(test)]
mod tests {
    use super::{CALLS, used};
    use crate::puzzles::deep;

    /// A search is at most 81 calls deep. No puzzle is known that reaches half of
    /// that, so half of the thread's stack has to be enough for these.
    #[test]
    fn deep_searches_need_less_than_half_of_a_thread() {
        let puzzles = deep();
        assert!(puzzles.len() > 300);
        for (name, call) in CALLS {
            let most = puzzles.iter().map(|puzzle| used(puzzle, call)).max();
            assert!(most < Some(1 << 20), "{name}: {most:?} bytes");
        }
    }

    #[test]
    fn the_stack_of_a_call_is_seen() {
        let puzzle = inputs::short_puzzle(4);
        let wide = used(&puzzle, |_| {
            std::hint::black_box([1u8; 100_000]);
        });
        assert!((100_000..110_000).contains(&wide), "{wide} bytes");
    }
}
