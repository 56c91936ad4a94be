//! Upstream's `alignment.rs`, `board.rs`, `board_match/`, with a driver for it, `corner_mapping.rs`, `link_check.rs` and
//! `marker_sampling.rs`.

mod public;
include!(concat!(env!("OUT_DIR"), "/alignment.rs"));
include!(concat!(env!("OUT_DIR"), "/board.rs"));
include!(concat!(env!("OUT_DIR"), "/board_match.rs"));
include!(concat!(env!("OUT_DIR"), "/corner_mapping.rs"));
include!(concat!(env!("OUT_DIR"), "/link_check.rs"));
include!(concat!(env!("OUT_DIR"), "/marker_sampling.rs"));

pub use board::{CharucoBoard, CharucoBoardError, CharucoBoardSpec, MarkerLayout};
pub use board_match::BoardMatchDiagnostics as ScoredCells;
pub use board_match::DiagHypothesis;
pub use link_check::{
    validate_marker_corner_links, CharucoMarkerCornerLinks, LinkCheckMode, LinkViolation,
    LinkViolationKind, MarkerCornerLink,
};
pub use public::{
    charuco_corners, count_of_markers, marker_cells, Gate, MatchRun, MatchSettings, Selected,
};
