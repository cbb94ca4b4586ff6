//! Paired timings and what is printed of them.

use std::time::Instant;

/// A call on one input, which gives a number.
pub type Call<'a> = Box<dyn FnMut() -> u64 + 'a>;

/// One input on both sides. Each side runs the call once and gives a number that
/// has to be the same on both.
pub struct Pair<'a> {
    pub engine: Call<'a>,
    pub rust: Call<'a>,
}

/// Nanoseconds for one call on one input.
#[derive(Clone, Copy)]
pub struct Times {
    pub engine: f64,
    pub rust: f64,
}

/// How often the inputs are gone through, and how often a call is repeated
/// between two looks at the clock.
#[derive(Clone, Copy)]
pub struct Effort {
    pub rounds: usize,
    pub repeats: u32,
}

/// Times all pairs and prints a table.
pub fn measure(title: &str, pairs: &mut [Pair], effort: Effort) {
    let rounds = in_rounds(effort.rounds, pairs, |pair, engine_first| {
        paired(pair, effort, engine_first)
    });
    print_title(title, pairs.len(), effort);
    print_pairs(&rounds);
}

/// Each round goes through every input; whether the engine starts alternates.
pub fn in_rounds<I, T>(
    rounds: usize,
    inputs: &mut [I],
    time: impl Fn(&mut I, bool) -> T,
) -> Vec<Vec<T>> {
    let one_round = |round| {
        let inputs = inputs.iter_mut().enumerate();
        inputs
            .map(|(i, input)| time(input, (round + i) % 2 == 0))
            .collect()
    };
    (0..rounds).map(one_round).collect()
}

/// Runs both sides, one right after the other.
pub fn both<E, R>(
    engine_first: bool,
    engine: impl FnOnce() -> E,
    rust: impl FnOnce() -> R,
) -> (E, R) {
    if engine_first {
        let engine = engine();
        (engine, rust())
    } else {
        let rust = rust();
        (engine(), rust)
    }
}

/// How many nanoseconds it ran, and what it gave.
pub fn clocked<T>(run: impl FnOnce() -> T) -> (f64, T) {
    let start = Instant::now();
    let given = run();
    (start.elapsed().as_nanos() as f64, given)
}

/// Times the engine without the Rust and prints its row of the table. Gives the place of
/// the input that takes longest.
pub fn measure_alone(title: &str, calls: &mut [Call], effort: Effort) -> usize {
    let mut rounds: Vec<Vec<f64>> = Vec::new();
    for _ in 0..effort.rounds {
        let times = calls.iter_mut().map(|call| timed(call, effort.repeats).0);
        rounds.push(times.collect());
    }
    let times = each_input(&rounds, |&time| time);
    let longest = (0..times.len()).max_by(|&one, &other| times[one].total_cmp(&times[other]));
    print_title(title, calls.len(), effort);
    print_sides(&[("engine", &Spread::of(times))]);
    longest.expect("an input")
}

fn paired(pair: &mut Pair, effort: Effort, engine_first: bool) -> Times {
    let ((engine, by_engine), (rust, by_rust)) = both(
        engine_first,
        || timed(&mut pair.engine, effort.repeats),
        || timed(&mut pair.rust, effort.repeats),
    );
    assert_eq!(by_engine, by_rust, "the sides differ: run compare");
    Times { engine, rust }
}

/// The time of one call, and what the last one gave.
fn timed(call: &mut dyn FnMut() -> u64, repeats: u32) -> (f64, u64) {
    let (nanoseconds, given) = clocked(|| {
        let mut given = 0;
        for _ in 0..repeats {
            given = call();
        }
        given
    });
    (nanoseconds / f64::from(repeats), given)
}

pub fn print_title(title: &str, inputs: usize, effort: Effort) {
    let Effort { rounds, repeats } = effort;
    println!("{title}: {inputs} inputs, {rounds} rounds, {repeats} calls each");
}

fn print_sides(sides: &[(&str, &Spread)]) {
    println!("  side        median         p99     largest       total");
    for (side, spread) in sides {
        let [median, p99, largest, total] = spread.values().map(shown);
        println!("  {side:6} {median:>11} {p99:>11} {largest:>11} {total:>11}");
    }
}

/// Prints the table of both sides. Gives the ratio of the totals, the median over the rounds.
pub fn print_pairs(rounds: &[Vec<Times>]) -> f64 {
    let engine = Spread::of(each_input(rounds, |times| times.engine));
    let rust = Spread::of(each_input(rounds, |times| times.rust));
    let ratios = sorted(rounds.iter().map(|round| {
        let total = |side: fn(&Times) -> f64| round.iter().map(side).sum::<f64>();
        total(|times| times.engine) / total(|times| times.rust)
    }));
    print_sides(&[("engine", &engine), ("Rust", &rust)]);
    let mut pairs = engine.values().into_iter().zip(rust.values());
    let [median, p99, largest, total] = std::array::from_fn(|_| {
        let pair = pairs.next();
        shown_ratio(pair.map_or(f64::NAN, |(engine, rust)| engine / rust))
    });
    println!("  ratio  {median:>11} {p99:>11} {largest:>11} {total:>11}");
    let ratio = quantile(&ratios, 0.5);
    println!(
        "  ratio of the totals over the rounds: {} to {}, median {}\n",
        shown_ratio(ratios[0]),
        shown_ratio(ratios[ratios.len() - 1]),
        shown_ratio(ratio)
    );
    ratio
}

/// Two digits behind the point, and four where these would be about nought.
fn shown_ratio(ratio: f64) -> String {
    if ratio < 0.1 {
        format!("{ratio:.4}")
    } else {
        format!("{ratio:.2}")
    }
}

/// The median over the rounds, for each input.
fn each_input<T>(rounds: &[Vec<T>], side: fn(&T) -> f64) -> Vec<f64> {
    (0..rounds[0].len())
        .map(|input| quantile(&sorted(rounds.iter().map(|round| side(&round[input]))), 0.5))
        .collect()
}

/// The spread over the inputs.
struct Spread {
    median: f64,
    p99: f64,
    largest: f64,
    total: f64,
}

impl Spread {
    fn of(times: Vec<f64>) -> Self {
        let times = sorted(times.into_iter());
        Self {
            median: quantile(&times, 0.5),
            p99: quantile(&times, 0.99),
            largest: times[times.len() - 1],
            total: times.iter().sum(),
        }
    }

    fn values(&self) -> [f64; 4] {
        [self.median, self.p99, self.largest, self.total]
    }
}

pub fn sorted(values: impl Iterator<Item = f64>) -> Vec<f64> {
    let mut values: Vec<f64> = values.collect();
    values.sort_by(f64::total_cmp);
    values
}

pub fn quantile(sorted: &[f64], part: f64) -> f64 {
    sorted[((sorted.len() - 1) as f64 * part).round() as usize]
}

pub fn shown(nanoseconds: f64) -> String {
    match nanoseconds {
        t if t < 1e4 => format!("{t:.1} ns"),
        t if t < 1e7 => format!("{:.1} us", t / 1e3),
        t if t < 1e10 => format!("{:.1} ms", t / 1e6),
        t => format!("{:.1} s", t / 1e9),
    }
}

#[cfg(test)]
mod tests {
    use super::{quantile, shown, shown_ratio};

    #[test]
    fn quantiles_are_entries() {
        let times: Vec<f64> = (1..=101).map(f64::from).collect();
        assert_eq!(quantile(&times, 0.5), 51.0);
        assert_eq!(quantile(&times, 0.99), 100.0);
        assert_eq!(quantile(&[3.0], 0.99), 3.0);
    }

    #[test]
    fn a_small_ratio_is_still_seen() {
        assert_eq!(shown_ratio(0.456), "0.46");
        assert_eq!(shown_ratio(0.002_871), "0.0029");
    }

    #[test]
    fn times_are_shown_with_their_unit() {
        assert_eq!(shown(12.34), "12.3 ns");
        assert_eq!(shown(1.5e7), "15.0 ms");
    }
}
