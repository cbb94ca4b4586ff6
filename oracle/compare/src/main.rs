//! `compare [--seed NUMBER] [--seconds NUMBER]`

use std::env;
use std::process::ExitCode;
use std::time::{Duration, Instant};

use compare::{Linked, jobs, report};

const USAGE: &str = "usage: compare [--seed NUMBER] [--seconds NUMBER]";

struct Options {
    seed: u64,
    seconds: u64,
}

fn main() -> ExitCode {
    let Some(options) = options(env::args().skip(1)) else {
        eprintln!("{USAGE}");
        return ExitCode::from(2);
    };
    if !reference::overflow_is_checked() {
        eprintln!("compare: built without overflow checks, so the Rust cannot be compared");
        return ExitCode::from(2);
    }
    compare(&options)
}

fn compare(options: &Options) -> ExitCode {
    let start = Instant::now();
    let budget = Duration::from_secs(options.seconds);
    match report::run(&Linked, &jobs(options.seed), budget) {
        Ok(lines) => {
            let inputs = report::total(&lines);
            let seconds = start.elapsed().as_secs_f64();
            print!("{}", report::table(&lines));
            println!(
                "seed {}, {seconds:.1} s, {} inputs a second",
                options.seed,
                report::grouped((inputs as f64 / seconds) as u64)
            );
            println!("compare: {} inputs, 0 differences", report::grouped(inputs));
            ExitCode::SUCCESS
        }
        Err(found) => {
            println!("compare: DIFFERENCE in {} ({})", found.call, found.family);
            println!("  smallest input found: {}", found.failure.input);
            println!("  {}", found.failure.difference);
            println!("  seed {}", options.seed);
            ExitCode::FAILURE
        }
    }
}

fn options(mut words: impl Iterator<Item = String>) -> Option<Options> {
    let mut options = Options {
        seed: 1,
        seconds: 60,
    };
    while let Some(word) = words.next() {
        let number = words.next()?.parse().ok()?;
        match word.as_str() {
            "--seed" => options.seed = number,
            "--seconds" => options.seconds = number,
            _ => return None,
        }
    }
    Some(options)
}
