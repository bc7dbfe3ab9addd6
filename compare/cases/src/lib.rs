//! Seeded tables, for the comparison (`compare`) and for the benchmark.

pub mod edits;
pub mod grammar;
pub mod rng;
