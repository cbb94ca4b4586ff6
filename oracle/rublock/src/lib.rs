//! The published Rust solver of docs/src, compiled from checked copies.
//!
//! The build script compares each file with its SHA-256 before it copies it.
//! The text is as published but for an addition at the end of two files:
//! [`queue_solver::QueueSolverState::domains`] reads the private candidate table,
//! and [`solver::subsets_of_sum`] the private sets of digits.

// The stand-in for `tracing` discards its events, so their helpers go unused.
#![allow(dead_code)]

include!(concat!(env!("OUT_DIR"), "/modules.rs"));
