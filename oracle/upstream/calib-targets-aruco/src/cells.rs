//! Stand-ins for upstream's cells, their samples and the markers found in them, with what `board_match/` uses.

use calib_targets_core::{Coord, GrayImageView};
use nalgebra::Point2;
use std::cell::RefCell;

#[derive(Clone, Debug)]
pub struct CellSamples {
    /// The grey levels row by row, `cells_per_side` to a row.
    pub mean_grid: Vec<u8>,
    pub otsu_threshold: u8,
    pub border_black_fraction: f32,
    pub border_bits: usize,
    pub bits_per_side: usize,
    pub cells_per_side: usize,
}

#[derive(Clone, Debug)]
pub struct MarkerCell {
    pub gc: Coord,
    pub corners_img: [Point2<f32>; 4],
}

impl MarkerCell {
    pub const fn new(gc: Coord, corners_img: [Point2<f32>; 4]) -> Self {
        Self { gc, corners_img }
    }
}

#[derive(Clone, Debug)]
pub struct MarkerDetection {
    pub id: u32,
    pub gc: Coord,
    pub rotation: u8,
    pub hamming: u8,
    pub code: u64,
    pub corners_rect: [Point2<f32>; 4],
    pub score: f32,
    pub border_score: f32,
    pub corners_img: Option<[Point2<f32>; 4]>,
}

impl MarkerDetection {
    pub const fn new(
        id: u32,
        gc: Coord,
        rotation: u8,
        hamming: u8,
        code: u64,
        corners_rect: [Point2<f32>; 4],
    ) -> Self {
        Self {
            id,
            gc,
            rotation,
            hamming,
            code,
            corners_rect,
            score: 0.0,
            border_score: 0.0,
            corners_img: None,
        }
    }

    pub const fn with_scores(mut self, score: f32, border_score: f32) -> Self {
        self.score = score;
        self.border_score = border_score;
        self
    }

    pub const fn with_corners_img(mut self, corners_img: [Point2<f32>; 4]) -> Self {
        self.corners_img = Some(corners_img);
        self
    }
}

/// Samples in the place of the settings for a picture: `sample_cell` hands them out.
#[derive(Debug)]
pub struct ScanDecodeConfig(RefCell<Vec<Option<CellSamples>>>);

impl ScanDecodeConfig {
    pub const fn new(samples: Vec<Option<CellSamples>>) -> Self {
        Self(RefCell::new(samples))
    }
}

/// Corners that are no image positions: they are the index of the given cell.
pub fn corners_of_place(place: usize) -> [Point2<f32>; 4] {
    [Point2::new(place as f32, 0.0); 4]
}

pub const fn place_of_corners(corners: &[Point2<f32>; 4]) -> usize {
    corners[0].x as usize
}

/// There is no picture here: these are the samples given for the place that the cell's corners have. They are moved, not
/// copied, so each cell can be sampled once.
pub fn sample_cell(
    _image: &GrayImageView<'_>,
    cell: &MarkerCell,
    _px_per_square: f32,
    config: &ScanDecodeConfig,
    _bits: usize,
) -> Option<CellSamples> {
    config.0.borrow_mut()[place_of_corners(&cell.corners_img)].take()
}
