//! The answers of upstream, in the shapes in which both sides are compared.

mod board;
mod corner_mapping;
mod likelihood;
mod link_check;
mod marker_cells;
mod refusals;
mod scores;
mod turned_board;
mod turns;

pub use board::Board;
pub use corner_mapping::{MappedOnBoard, map_charuco_corners};
pub use likelihood::{BUILT_IN, TABLE_LENGTH, entries, is_table, likelihood_table, score_by_table};
pub use link_check::{CheckedOnBoard, Violation, links_by_rules, links_by_rust, unordered};
pub use marker_cells::{Labeled, marker_cells};
pub use refusals::{accepted_board, board_up_to_8, two_alike, two_alike_by_pairs};
pub use scores::{
    BORDER_THRESHOLD, Samples, ScoreBoard, Scores, cell_samples, cell_weight, cut, null_score,
    read_code, rotate_gc_top_left,
};
pub use turned_board::TurnedBoard;
pub use turns::{CodeMatcher, cell_rect_corners, corner_translation, rotate_code, turned};
