//! Shot records, by document 01. Upstream has none, so these are the oracle's: a writer and a reader, each written from the
//! document alone and without the other, are compared with each other and with this library.

pub mod damage;
mod random;
mod read;
mod shot;
pub mod telling;
pub mod told;
mod write;

pub use random::{FLOATS, Shape, filled};
pub use read::{Read, read};
pub use shot::{Cell, Sample, Shot, TABLE_LENGTH, UNSAMPLED, built_in_table, settings};
pub use write::{Written, write};

/// The number of the one check that readers of a record make.
pub const REFUSED: u32 = 21;

/// The most bytes that a record may have.
pub const LONGEST: usize = 65_535;
