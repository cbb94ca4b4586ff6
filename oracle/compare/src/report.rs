//! Runs the families within a time budget and prints what was compared.

use std::collections::BTreeMap;
use std::num::NonZero;
use std::sync::Mutex;
use std::sync::atomic::{AtomicUsize, Ordering};
use std::thread;
use std::time::{Duration, Instant};

use crate::engine::Engine;
use crate::harness::{Failure, Job, Tally};

/// What happened to one family.
pub struct Line {
    pub call: &'static str,
    pub family: &'static str,
    pub tally: Tally,
}

/// A difference, with the family that had it.
pub struct Found {
    pub call: &'static str,
    pub family: &'static str,
    pub failure: Failure,
}

/// Whole lists first; the drawn families share the time that is left. Every
/// processor runs a family at a time.
pub fn run(
    engine: &dyn Engine,
    jobs: &[Box<dyn Job>],
    budget: Duration,
) -> Result<Vec<Line>, Found> {
    let end = Instant::now() + budget;
    let places = 0..jobs.len();
    let (whole, drawn): (Vec<_>, Vec<_>) = places.partition(|&place| jobs[place].is_whole());
    let mut lines = several(&whole, |_, place| {
        line(engine, &*jobs[place], Duration::ZERO)
    })?;
    lines.extend(several(&drawn, |left, place| {
        let time = end.saturating_duration_since(Instant::now());
        let share = time * workers() as u32 / left as u32;
        line(engine, &*jobs[place], share.min(time))
    })?);
    Ok(lines.into_values().collect())
}

fn workers() -> usize {
    thread::available_parallelism().map_or(1, NonZero::get)
}

/// Does `work` at each place, told how many are left, as many at a time as there
/// are processors. Places are begun in their order and none after a difference,
/// so the one that is given back does not depend on which worker was faster.
fn several(
    places: &[usize],
    work: impl Fn(usize, usize) -> Result<Line, Found> + Sync,
) -> Result<BTreeMap<usize, Line>, Found> {
    let begun = AtomicUsize::new(0);
    let results = Mutex::new(BTreeMap::new());
    let worker = || {
        while let Some((left, place)) = next(places, &begun) {
            let result = work(left, place);
            if result.is_err() {
                begun.store(places.len(), Ordering::Relaxed);
            }
            results.lock().unwrap().insert(place, result);
        }
    };
    thread::scope(|scope| {
        for _ in 0..workers() {
            scope.spawn(worker);
        }
    });
    let results = results.into_inner().unwrap().into_iter();
    results
        .map(|(place, result)| Ok((place, result?)))
        .collect()
}

/// The next place, with how many are left, itself included.
fn next(places: &[usize], begun: &AtomicUsize) -> Option<(usize, usize)> {
    let done = begun.fetch_add(1, Ordering::Relaxed);
    let place = places.get(done)?;
    Some((places.len() - done, *place))
}

fn line(engine: &dyn Engine, job: &dyn Job, time: Duration) -> Result<Line, Found> {
    let (call, family) = (job.call(), job.family());
    match job.run(engine, time) {
        Ok(tally) => Ok(Line {
            call,
            family,
            tally,
        }),
        Err(failure) => Err(Found {
            call,
            family,
            failure,
        }),
    }
}

/// The number of inputs of all families.
pub fn total(lines: &[Line]) -> u64 {
    lines.iter().map(|line| line.tally.inputs).sum()
}

/// A line for each family: inputs, then how often each answer came.
pub fn table(lines: &[Line]) -> String {
    let width = |length: fn(&Line) -> usize| lines.iter().map(length).max().unwrap_or(0);
    let call = width(|line| line.call.len());
    let family = width(|line| line.family.len());
    let mut text = format!(
        "{:call$}  {:family$}  {:>11}  answers\n",
        "call", "family", "inputs"
    );
    for line in lines {
        let answers: Vec<String> = line
            .tally
            .answers
            .iter()
            .map(|(label, times)| format!("{label}: {}", grouped(*times)))
            .collect();
        text.push_str(&format!(
            "{:call$}  {:family$}  {:>11}  {}\n",
            line.call,
            line.family,
            grouped(line.tally.inputs),
            answers.join(", ")
        ));
    }
    text
}

/// A number with a comma after each thousand.
pub fn grouped(number: u64) -> String {
    let digits = number.to_string();
    let mut text = String::new();
    for (place, digit) in digits.chars().enumerate() {
        if place > 0 && (digits.len() - place).is_multiple_of(3) {
            text.push(',');
        }
        text.push(digit);
    }
    text
}
