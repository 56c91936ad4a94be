//! The inputs of both sides: fixed lists of special values, and random ones from a fixed seed.

pub mod answer;
pub mod boards;
pub mod cells;
pub mod codes;
pub mod corner_entry;
pub mod corner_lists;
pub mod entries;
pub mod floats;
pub mod layout;
pub mod link_entry;
pub mod points;
pub mod prng;
pub mod results;
pub mod tables;
