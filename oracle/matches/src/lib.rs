//! The whole match, from a record to the answer that document 01 and upstream give; the records of the comparison; and the
//! exact evidence, with which the accuracy rule compares the reported one.

mod answer;
pub mod codes;
pub mod counts;
pub mod cuts;
pub mod exact;
pub mod given;
pub mod logs;
mod model;
mod paired;
mod questions;
pub mod restated;
mod rust;
pub mod scores;
mod text;
mod turned;
pub mod weights;
mod wide;

pub use answer::{
    ANSWER_WORDS, Alignment, Hypothesis, MARKER_WORDS, MOST_PLACES, Marker, Matched, NUMBERS,
    Placed, Selected, told,
};
pub use paired::{PairedShot, Ties};
pub use questions::{
    WithScores, by_paired_rust_and_model, by_rust_and_model, by_rust_without_22,
    by_rust_without_23, by_turned_rust_and_model, match_record, match_record_with_scores,
    match_shot, refused_by_match_alone,
};
pub use rust::{Matching, Samples};
pub use text::text;
pub use turned::{Compared, Placement, TurnedShot};
pub use wide::Wide;
