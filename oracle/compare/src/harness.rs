//! Families of inputs, the time they get, and the search for a smallest input
//! that shows a difference.

use std::collections::BTreeMap;
use std::fmt::Display;
use std::time::{Duration, Instant};

use inputs::{Rng, SeededRng};

use crate::engine::Engine;

/// What an answer was, for the table at the end.
pub type Label = &'static str;

/// The label of a refusal.
pub fn refused(number: u8) -> Label {
    const LABELS: [Label; 10] = [
        "refused 1",
        "refused 2",
        "refused 3",
        "refused 4",
        "refused 5",
        "refused 6",
        "refused 7",
        "refused 8",
        "refused 9",
        "refused 10",
    ];
    match number {
        18 => "refused 18",
        19 => "refused 19",
        _ => LABELS[usize::from(number) - 1],
    }
}

/// The answer that all sides agree on: in the hall, and in a classroom where it is
/// another there.
#[derive(Clone, Copy)]
pub struct Answer {
    pub hall: Label,
    pub classroom: Option<Label>,
    /// A difference from the Rust that is allowed, counted beside the answer.
    pub beside: Option<Label>,
}

impl Answer {
    /// What a classroom alone refuses is counted under a name of its own.
    pub fn of(hall: Label, classroom: Option<u8>) -> Self {
        let classroom = match classroom {
            Some(18) => Some("classroom refused 18"),
            Some(19) => Some("classroom refused 19"),
            _ => None,
        };
        Self {
            hall,
            classroom,
            beside: None,
        }
    }
}

/// A call under comparison.
pub trait Call {
    type Input: Clone + Display;

    const NAME: &'static str;

    /// The families of inputs.
    fn families() -> Vec<Family<Self::Input>>;

    /// Runs every side on one input, the engine in both units: the answer they agree
    /// on, or what differs.
    fn check(engine: &dyn Engine, input: &Self::Input) -> Result<Answer, String>;

    /// Inputs that are simpler than this one in some measure that cannot fall
    /// for ever, the simplest first.
    fn simpler(input: &Self::Input) -> Vec<Self::Input>;
}

/// Inputs of one kind.
pub struct Family<I> {
    pub name: &'static str,
    pub inputs: Inputs<I>,
}

pub enum Inputs<I> {
    /// A list that is always run to its end.
    Whole(Box<dyn Fn() -> Box<dyn Iterator<Item = I>> + Sync>),
    /// Random inputs, as many as the time allows.
    Drawn(fn(&mut SeededRng) -> I),
}

impl<I> Family<I> {
    pub fn whole<T>(name: &'static str, inputs: impl Fn() -> T + Sync + 'static) -> Self
    where
        T: Iterator<Item = I> + 'static,
    {
        let inputs = Inputs::Whole(Box::new(move || Box::new(inputs())));
        Self { name, inputs }
    }

    pub fn drawn(name: &'static str, draw: fn(&mut SeededRng) -> I) -> Self {
        let inputs = Inputs::Drawn(draw);
        Self { name, inputs }
    }
}

/// One family of one call, with the type of its inputs out of sight.
pub trait Job: Sync {
    fn call(&self) -> &'static str;
    fn family(&self) -> &'static str;
    fn is_whole(&self) -> bool;
    /// Runs the family; drawn inputs stop after `time`.
    fn run(&self, engine: &dyn Engine, time: Duration) -> Result<Tally, Failure>;
}

/// How many inputs were compared, and how often each answer came.
#[derive(Default)]
pub struct Tally {
    pub inputs: u64,
    pub answers: BTreeMap<Label, u64>,
}

impl Tally {
    fn add(&mut self, answer: Answer) {
        self.inputs += 1;
        let labels = [Some(answer.hall), answer.classroom, answer.beside];
        for label in labels.into_iter().flatten() {
            *self.answers.entry(label).or_default() += 1;
        }
    }
}

/// A difference, on the smallest input that was found.
#[derive(Debug)]
pub struct Failure {
    pub input: String,
    pub difference: String,
}

/// Even with no time left, a drawn family compares this many inputs.
const LEAST_DRAWN: u64 = 1000;

/// Between two looks at the clock.
const STRIDE: u64 = 64;

/// A smallest input is looked for in this many checks at most.
const MOST_CHECKS: usize = 20_000;

struct FamilyJob<C: Call> {
    family: Family<C::Input>,
    seed: u64,
}

/// The families of one call, each with a seed of its own.
pub fn jobs_of<C: Call + 'static>(seed: u64) -> Vec<Box<dyn Job>> {
    C::families()
        .into_iter()
        .map(|family| {
            let seed = seed_of(seed, C::NAME, family.name);
            Box::new(FamilyJob::<C> { family, seed }) as Box<dyn Job>
        })
        .collect()
}

/// By name, so that a new family does not change the inputs of the others.
fn seed_of(seed: u64, call: &str, family: &str) -> u64 {
    let mut mixed = SeededRng::new(seed).next_u64();
    for byte in call.bytes().chain([0]).chain(family.bytes()) {
        mixed = SeededRng::new(mixed ^ u64::from(byte)).next_u64();
    }
    mixed
}

impl<C: Call> Job for FamilyJob<C> {
    fn call(&self) -> &'static str {
        C::NAME
    }

    fn family(&self) -> &'static str {
        self.family.name
    }

    fn is_whole(&self) -> bool {
        matches!(self.family.inputs, Inputs::Whole(_))
    }

    fn run(&self, engine: &dyn Engine, time: Duration) -> Result<Tally, Failure> {
        let mut tally = Tally::default();
        match &self.family.inputs {
            Inputs::Whole(inputs) => {
                for input in inputs() {
                    tally.add(answer::<C>(engine, input)?);
                }
            }
            Inputs::Drawn(draw) => {
                let end = Instant::now() + time;
                let mut rng = SeededRng::new(self.seed);
                while tally.inputs < LEAST_DRAWN
                    || tally.inputs % STRIDE != 0
                    || Instant::now() < end
                {
                    tally.add(answer::<C>(engine, draw(&mut rng))?);
                }
            }
        }
        Ok(tally)
    }
}

fn answer<C: Call>(engine: &dyn Engine, input: C::Input) -> Result<Answer, Failure> {
    C::check(engine, &input).map_err(|difference| smallest::<C>(engine, input, difference))
}

/// Goes from input to simpler input as long as a difference remains.
fn smallest<C: Call>(engine: &dyn Engine, input: C::Input, difference: String) -> Failure {
    let (mut input, mut difference) = (input, difference);
    let mut checks = MOST_CHECKS;
    'simpler: loop {
        for candidate in C::simpler(&input) {
            if checks == 0 {
                break 'simpler;
            }
            checks -= 1;
            if let Err(found) = C::check(engine, &candidate) {
                (input, difference) = (candidate, found);
                continue 'simpler;
            }
        }
        break;
    }
    Failure {
        input: input.to_string(),
        difference,
    }
}
