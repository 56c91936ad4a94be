//! How both sides are called, for the comparison and the benchmarks.

pub mod bench;
pub mod entries;
pub mod ours;
