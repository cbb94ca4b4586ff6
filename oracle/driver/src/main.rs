//! `driver` answers the lines of standard input as `sheet` does; `driver check LINES
//! ANSWERS` says of the answers in a file whether they are right; `driver lines SEED
//! COUNT` writes lines; `driver subsets` prints the subsets as `subsets` does.

use std::io::{self, BufWriter, Write};
use std::process::ExitCode;
use std::{env, fs};

const USAGE: &str =
    "usage: driver | driver check LINES ANSWERS | driver lines SEED COUNT | driver subsets";

fn main() -> ExitCode {
    let words: Vec<String> = env::args().skip(1).collect();
    let Some(task) = task(&words) else {
        eprintln!("{USAGE}");
        return ExitCode::from(2);
    };
    match run(&task) {
        Ok(code) => code,
        Err(error) => {
            eprintln!("driver: {error}");
            ExitCode::FAILURE
        }
    }
}

enum Task {
    Answer,
    Check { lines: String, answers: String },
    Lines { seed: u64, count: usize },
    Subsets,
}

fn task(words: &[String]) -> Option<Task> {
    match words {
        [] => Some(Task::Answer),
        [word, lines, answers] if word == "check" => Some(Task::Check {
            lines: lines.clone(),
            answers: answers.clone(),
        }),
        [word, seed, count] if word == "lines" => Some(Task::Lines {
            seed: seed.parse().ok()?,
            count: count.parse().ok()?,
        }),
        [word] if word == "subsets" => Some(Task::Subsets),
        _ => None,
    }
}

fn run(task: &Task) -> io::Result<ExitCode> {
    match task {
        Task::Answer => {
            driver::answer_lines(io::stdin().lock(), BufWriter::new(io::stdout()))?;
        }
        Task::Check { lines, answers } => return check(&fs::read(lines)?, &fs::read(answers)?),
        Task::Lines { seed, count } => io::stdout().write_all(&inputs::stream(*seed, *count))?,
        Task::Subsets => io::stdout().write_all(rules::printed_subsets().as_bytes())?,
    }
    Ok(ExitCode::SUCCESS)
}

fn check(lines: &[u8], answers: &[u8]) -> io::Result<ExitCode> {
    let mut by_rust = Vec::new();
    driver::answer_lines(lines, &mut by_rust)?;
    Ok(match driver::check(lines, &by_rust, answers) {
        Ok(count) => {
            println!("{count} lines, 0 differences");
            ExitCode::SUCCESS
        }
        Err(wrong) => {
            println!("{wrong}");
            ExitCode::FAILURE
        }
    })
}
