//! `bench [ROUNDS]` times all calls; `bench batch [ROUNDS]` times the kept puzzles of size 8
//! and fails if the engine is too slow on them; `bench searches` times long counts; `bench
//! choose` prints the size 9 list; `bench stack` measures the stack of the calls that search;
//! `bench sheet` times whole programs.

mod batch;
mod marking;
mod measure;
mod puzzles;
mod searches;
mod searching;
mod sheet;
mod stack;
mod sums;

use std::env;
use std::process::ExitCode;

const USAGE: &str = "usage: bench [ROUNDS] | bench batch [ROUNDS] | bench searches | \
                     bench choose | bench stack | bench sheet [6 | 8]";

const ROUNDS: usize = 9;

/// A round of the kept puzzles takes some 25 seconds.
const BATCH_ROUNDS: usize = 3;

fn main() -> ExitCode {
    let words: Vec<String> = env::args().skip(1).collect();
    let words: Vec<&str> = words.iter().map(String::as_str).collect();
    match words[..] {
        [] => time_all(ROUNDS),
        ["batch"] => return time_batch(BATCH_ROUNDS),
        ["batch", rounds] => match rounds.parse() {
            Ok(rounds @ 1..) => return time_batch(rounds),
            _ => return usage(),
        },
        ["searches"] => time_searches(),
        ["choose"] => puzzles::choose(),
        ["stack"] => stack::run(&puzzles::deep()),
        ["sheet"] => return time_programs(&[6, 8]),
        ["sheet", "6"] => return time_programs(&[6]),
        ["sheet", "8"] => return time_programs(&[8]),
        [rounds] => match rounds.parse() {
            Ok(rounds @ 1..) => time_all(rounds),
            _ => return usage(),
        },
        _ => return usage(),
    }
    ExitCode::SUCCESS
}

fn usage() -> ExitCode {
    eprintln!("{USAGE}");
    ExitCode::from(2)
}

fn time_all(rounds: usize) {
    say_how_built();
    sums::run(rounds);
    marking::run(rounds);
    searching::run(rounds);
}

fn time_batch(rounds: usize) -> ExitCode {
    say_how_built();
    if batch::run(rounds) {
        ExitCode::SUCCESS
    } else {
        ExitCode::FAILURE
    }
}

fn time_searches() {
    say_how_built();
    searches::run();
}

fn time_programs(sizes: &[usize]) -> ExitCode {
    say_how_built();
    if let Err(reason) = sheet::run(sizes) {
        eprintln!("bench: {reason}");
        return ExitCode::FAILURE;
    }
    ExitCode::SUCCESS
}

fn say_how_built() {
    let checked = if reference::overflow_is_checked() {
        "on"
    } else {
        "off"
    };
    println!("The Rust is built with overflow checks {checked}.\n");
}
