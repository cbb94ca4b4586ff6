//! Whole programs on the same lines: the engine's `sheet` and `driver`, which does
//! the same with the Rust.

use std::hint::black_box;
use std::io::{self, Write};
use std::path::{Path, PathBuf};
use std::process::{Command, Stdio};
use std::time::Instant;
use std::{env, thread};

use inputs::Puzzle;

use crate::measure::{quantile, shown, sorted};
use crate::puzzles::timed;

/// A run takes some 30 ms at size 6, and up to half a minute at size 8.
const ROUNDS: [(usize, usize); 2] = [(6, 31), (8, 2)];

/// Places among the sides of a table.
const SHEET: usize = 0;
const DRIVER: usize = 1;
const ENGINE_CALL: usize = 2;
const RUST_CALL: usize = 3;

/// Prints a table for each of these sizes, or says why there is none.
pub fn run(sizes: &[usize]) -> Result<(), String> {
    let sheet = found(sheet_path(), "run `rt run` in crates/sheet first")?;
    let driver = found(driver_path(), "build it in the profile of bench")?;
    for (size, rounds) in ROUNDS.into_iter().filter(|(size, _)| sizes.contains(size)) {
        let puzzles = timed(size);
        let lines = inputs::lines_of(&puzzles);
        let mut sides = vec![
            Side::program("sheet", &sheet, &lines),
            Side::program("driver", &driver, &lines),
        ];
        // At size 8 a search takes so long that nothing else can be seen.
        if size == 6 {
            sides.push(Side::call("engine's solve", engine_call, &puzzles));
            sides.push(Side::call("Rust's solve", rust_call, &puzzles));
            sides.push(Side::program(NO_LINES, &sheet, &[]));
        }
        let output = time(&mut sides, &lines, rounds)?;
        println!(
            "sheet, size {size}: {} lines, {rounds} rounds",
            puzzles.len()
        );
        print(&sides, puzzles.len() as f64);
        println!("  {output}\n");
    }
    Ok(())
}

/// The program's start and end alone.
const NO_LINES: &str = "sheet, no lines";

fn sheet_path() -> PathBuf {
    let built = || Path::new(env!("CARGO_MANIFEST_DIR")).join("../../crates/sheet/out/sheet");
    env::var_os("DOPPELBLOCK_SHEET").map_or_else(built, PathBuf::from)
}

/// Cargo puts the programs of a profile into one folder.
fn driver_path() -> PathBuf {
    let bench = env::current_exe().expect("a program knows its path");
    bench.with_file_name("driver")
}

fn found(program: PathBuf, advice: &str) -> Result<PathBuf, String> {
    if program.is_file() {
        Ok(program)
    } else {
        Err(format!("no program at {}: {advice}", program.display()))
    }
}

/// What is timed, with the nanoseconds of each round.
struct Side<'a> {
    name: &'static str,
    run: Box<dyn Fn() -> io::Result<Vec<u8>> + 'a>,
    times: Vec<f64>,
}

impl<'a> Side<'a> {
    fn new(name: &'static str, run: impl Fn() -> io::Result<Vec<u8>> + 'a) -> Self {
        let run = Box::new(run);
        let times = Vec::new();
        Self { name, run, times }
    }

    fn program(name: &'static str, program: &'a Path, input: &'a [u8]) -> Self {
        Self::new(name, move || output_of(program, input))
    }

    /// The searches alone, without lines and without a program's start.
    fn call(name: &'static str, call: fn(&Puzzle), puzzles: &'a [Puzzle]) -> Self {
        Self::new(name, move || {
            puzzles.iter().for_each(call);
            Ok(Vec::new())
        })
    }
}

/// What the program writes when it reads this input, once it has ended.
fn output_of(program: &Path, input: &[u8]) -> io::Result<Vec<u8>> {
    let mut command = Command::new(program);
    let mut child = command
        .stdin(Stdio::piped())
        .stdout(Stdio::piped())
        .spawn()?;
    let mut stdin = child.stdin.take().expect("a pipe was asked for");
    // Pipes are short: a program whose output nobody reads would stop reading.
    let (written, ended) = thread::scope(|scope| {
        let writer = scope.spawn(move || stdin.write_all(input));
        let ended = child.wait_with_output();
        (writer.join().expect("writing does not panic"), ended)
    });
    let ended = ended?;
    if !ended.status.success() {
        return Err(io::Error::other(ended.status.to_string()));
    }
    written.map(|()| ended.stdout)
}

fn engine_call(puzzle: &Puzzle) {
    let (size, rows, columns) = (puzzle.size, &puzzle.rows, &puzzle.columns);
    let mut cells = [0; 81];
    let cells = &mut cells[..size * size];
    let solved = doppelblock::solve(size, black_box(rows), columns, &[], cells);
    black_box((solved.expect("nothing is refused"), cells));
}

fn rust_call(puzzle: &Puzzle) {
    let (size, rows, columns) = (puzzle.size, &puzzle.rows, &puzzle.columns);
    black_box(reference::solve(size, black_box(rows), columns, &[]));
}

/// Runs all sides in each round, one after the other, each round beginning with
/// the next one. Says how far the output of both programs is the same: of a puzzle that
/// has several grids, `sheet` has to show the first, and `driver` shows the Rust's.
fn time(sides: &mut [Side], lines: &[u8], rounds: usize) -> Result<String, String> {
    let mut agreement = String::new();
    for round in 0..rounds {
        let mut outputs = vec![Vec::new(); sides.len()];
        for turn in 0..sides.len() {
            let place = (round + turn) % sides.len();
            let side = &mut sides[place];
            let start = Instant::now();
            let output = (side.run)().map_err(|error| format!("{}: {error}", side.name))?;
            side.times.push(start.elapsed().as_nanos() as f64);
            outputs[place] = output;
        }
        agreement = agreed(lines, &outputs[SHEET], &outputs[DRIVER])?;
    }
    Ok(agreement)
}

fn agreed(lines: &[u8], sheet: &[u8], driver: &[u8]) -> Result<String, String> {
    let wrong = |wrong| format!("sheet writes something else than driver: {wrong}");
    let count = driver::check(lines, driver, sheet).map_err(wrong)?;
    let with_ends = |text| <[u8]>::split_inclusive(text, |&byte| byte == b'\n');
    let pairs = with_ends(sheet).zip(with_ends(driver));
    let others = pairs.filter(|(sheet, driver)| sheet != driver).count();
    Ok(format!(
        "{count} answers, the same but for {others} grids where there are several"
    ))
}

fn print(sides: &[Side], lines: f64) {
    println!("  side                 median       least     largest   lines a second");
    for side in sides {
        let [least, median, largest] = spread(side.times.iter().copied());
        let speed = match side.name {
            NO_LINES => "-".to_string(),
            _ => format!("{:.0}", lines * 1e9 / median),
        };
        let [least, median, largest] = [least, median, largest].map(shown);
        let name = side.name;
        println!("  {name:15} {median:>11} {least:>11} {largest:>11} {speed:>16}");
    }
    let ratios = each_round(sides, SHEET, DRIVER).map(|(sheet, driver)| sheet / driver);
    let [least, median, largest] = spread(ratios);
    println!("  sheet / driver: median {median:.2}, {least:.2} to {largest:.2} over the rounds");
    if sides.len() > RUST_CALL {
        for (program, call) in [(SHEET, ENGINE_CALL), (DRIVER, RUST_CALL)] {
            print_rest(sides, program, call, lines);
        }
    }
}

/// What a program takes for each line beside the search. The least times are those
/// that other programs on the machine disturbed least.
fn print_rest(sides: &[Side], program: usize, call: usize, lines: f64) {
    let rest = each_round(sides, program, call).map(|(program, call)| (program - call) / lines);
    let [_, median, _] = spread(rest);
    let [of_program, of_call] =
        [program, call].map(|side| spread(sides[side].times.iter().copied())[0]);
    println!(
        "  {} less {}, for each line: median {}, least times {}",
        sides[program].name,
        sides[call].name,
        shown(median),
        shown((of_program - of_call) / lines)
    );
}

/// The times of two sides in the same round.
fn each_round(sides: &[Side], one: usize, other: usize) -> impl Iterator<Item = (f64, f64)> {
    let times = |side: usize| sides[side].times.iter().copied();
    times(one).zip(times(other))
}

/// The least, the median and the largest.
fn spread(values: impl Iterator<Item = f64>) -> [f64; 3] {
    let values = sorted(values);
    [0.0, 0.5, 1.0].map(|part| quantile(&values, part))
}

#[cfg(test)]
mod tests {
    use std::path::Path;

    use super::{Side, output_of, time};

    #[test]
    fn a_program_gets_and_gives_more_than_a_pipe_holds() {
        let input: Vec<u8> = (0..3_000_000u32).map(|number| number as u8).collect();
        assert_eq!(output_of(Path::new("cat"), &input).ok(), Some(input));
    }

    #[test]
    fn a_program_that_fails_is_an_error() {
        assert!(output_of(Path::new("false"), b"").is_err());
        assert!(output_of(Path::new("no-such-program"), b"").is_err());
    }

    /// A puzzle that has two grids: the first, and the one that the Rust shows.
    const LINE: &[u8] = b"4 3 0 0 0 3 0 0 0\n";
    const FIRST: &[u8] = b"multiple #12#/12##/2##1/##12\n";
    const OTHER: &[u8] = b"multiple #21#/21##/1##2/##21\n";

    #[test]
    fn programs_have_to_agree() {
        let gives = |output: &'static [u8]| Side::new("", move || Ok(output.to_vec()));
        let mut same = [gives(FIRST), gives(FIRST), gives(b"")];
        assert!(time(&mut same, LINE, 4).is_ok_and(|said| said.contains("but for 0 ")));
        assert!(same.iter().all(|side| side.times.len() == 4));
        let mut other = [gives(FIRST), gives(OTHER)];
        assert!(time(&mut other, LINE, 1).is_ok_and(|said| said.contains("but for 1 ")));
        assert!(time(&mut [gives(OTHER), gives(OTHER)], LINE, 1).is_err());
        assert!(time(&mut [gives(b"unsolvable\n"), gives(FIRST)], LINE, 1).is_err());
        assert!(time(&mut [gives(b""), gives(FIRST)], LINE, 1).is_err());
    }
}
