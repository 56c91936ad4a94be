//! Stand-ins for upstream's labelled corner and for a detection, with what `marker_sampling.rs` and `corner_mapping.rs`
//! use.

use nalgebra::Point2;
use projective_grid::Coord;

#[derive(Clone, Copy, Debug)]
pub struct LabeledCorner {
    pub position: Point2<f32>,
    pub score: f32,
    pub position_covariance: Option<[[f32; 2]; 2]>,
    pub grid: Option<Coord>,
    pub id: Option<u32>,
    pub target_position: Option<Point2<f32>>,
}

impl LabeledCorner {
    pub const fn new(position: Point2<f32>, score: f32) -> Self {
        Self {
            position,
            score,
            position_covariance: None,
            grid: None,
            id: None,
            target_position: None,
        }
    }

    pub const fn with_position_covariance(mut self, covariance: Option<[[f32; 2]; 2]>) -> Self {
        self.position_covariance = covariance;
        self
    }

    pub const fn with_grid(mut self, grid: Coord) -> Self {
        self.grid = Some(grid);
        self
    }

    pub const fn with_id(mut self, id: u32) -> Self {
        self.id = Some(id);
        self
    }

    pub const fn with_target_position(mut self, target: Point2<f32>) -> Self {
        self.target_position = Some(target);
        self
    }
}

#[derive(Clone, Copy, Debug, PartialEq, Eq)]
pub enum TargetKind {
    Chessboard,
    Charuco,
}

#[derive(Clone, Debug)]
pub struct TargetDetection {
    pub kind: TargetKind,
    pub corners: Vec<LabeledCorner>,
}

impl TargetDetection {
    pub const fn new(kind: TargetKind, corners: Vec<LabeledCorner>) -> Self {
        Self { kind, corners }
    }
}
