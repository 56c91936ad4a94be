//! Upstream's `matcher.rs` over stand-ins for the dictionary and for cells, whose files are not given.

mod cells;
mod dictionary;
include!(concat!(env!("OUT_DIR"), "/matcher.rs"));

pub use cells::{
    corners_of_place, place_of_corners, sample_cell, CellSamples, MarkerCell, MarkerDetection,
    ScanDecodeConfig,
};
pub use dictionary::{resolve_dictionary, Dictionary};
pub use matcher::{rotate_code_u64, Match, Matcher};
