//! `answers FILE [CALL]...`: writes the records of the named calls, or of all
//! calls.

use std::process::ExitCode;
use std::{env, fs};

use answers::Call;

const USAGE: &str = "usage: answers FILE [sums] [marking] [candidates] [count] [solve] [lines]";

fn main() -> ExitCode {
    let mut words = env::args().skip(1);
    let file = words.next().filter(|word| !word.starts_with('-'));
    let calls: Option<Vec<Call>> = words.map(|word| Call::named(&word)).collect();
    let (Some(file), Some(calls)) = (file, calls) else {
        eprintln!("{USAGE}");
        return ExitCode::from(2);
    };
    write(&file, if calls.is_empty() { &Call::ALL } else { &calls })
}

fn write(file: &str, calls: &[Call]) -> ExitCode {
    let mut list = Vec::new();
    for &call in calls {
        let records = call.records();
        println!("{call:?}: {} records", records.len());
        for record in records {
            list.extend_from_slice(record.bytes());
        }
    }
    if let Err(error) = fs::write(file, &list) {
        eprintln!("answers: {file}: {error}");
        return ExitCode::FAILURE;
    }
    println!("{file}: {} bytes", list.len());
    ExitCode::SUCCESS
}
