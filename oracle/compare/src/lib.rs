//! Holds the engine to the rules and to the published Rust on the same inputs.
//!
//! A call joins the comparison in three steps: a method in [`Engine`], a module
//! that implements [`harness::Call`], and a line in [`jobs`].

pub mod batch;
pub mod candidates;
pub mod count;
pub mod engine;
pub mod guarded;
pub mod harness;
pub mod marking;
pub mod report;
pub mod searching;
pub mod simpler;
pub mod solve;
pub mod sums;

pub use engine::{Engine, Linked};
use harness::{Job, jobs_of};

/// The families of all calls. The same seed gives the same inputs.
pub fn jobs(seed: u64) -> Vec<Box<dyn Job>> {
    // The longest list is begun first, so that the others run beside it.
    let mut jobs = jobs_of::<batch::Batch>(seed);
    jobs.extend(jobs_of::<sums::TargetSums>(seed));
    jobs.extend(jobs_of::<marking::MarkSheet>(seed));
    jobs.extend(jobs_of::<count::Count>(seed));
    jobs.extend(jobs_of::<solve::Solve>(seed));
    jobs.extend(jobs_of::<candidates::Candidates>(seed));
    jobs
}
