//! Upstream's `bit_likelihood.rs`, `corner_map.rs`, `grid_alignment.rs` and `image.rs`, and the names that other
//! upstream files look for in this crate. The files of a labelled corner and of a detection are not given; they have
//! stand-ins.

mod labeled_corner;
include!(concat!(env!("OUT_DIR"), "/bit_likelihood.rs"));
include!(concat!(env!("OUT_DIR"), "/corner_map.rs"));
include!(concat!(env!("OUT_DIR"), "/grid_alignment.rs"));
include!(concat!(env!("OUT_DIR"), "/image.rs"));

pub use bit_likelihood::log_sigmoid;
pub use corner_map::{complete_cell_corners, corner_map_bounds, CornerMap};
pub use grid_alignment::{
    cell_rect_corners_at, cell_to_corner_alignment, GridAlignment, GridTransform,
    GRID_TRANSFORMS_C4, GRID_TRANSFORMS_D4,
};
pub use image::GrayImageView;
pub use labeled_corner::{LabeledCorner, TargetDetection, TargetKind};
pub use projective_grid::Coord;
