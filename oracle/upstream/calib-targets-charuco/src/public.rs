//! What upstream keeps within its crate, for other crates: two functions, and a run of the matcher on samples that are given.
//! That is `match_board_core` itself, not its stages put together anew.

use crate::alignment::CharucoAlignment;
use crate::board::CharucoBoard;
use crate::board_match::{match_board, match_board_diag, BoardMatchConfig, DiagHypothesis};
use crate::corner_mapping::map_charuco_corners;
use crate::marker_sampling::{build_corner_map, build_marker_cells};
use calib_targets_aruco::{MarkerCell, MarkerDetection, ScanDecodeConfig};
use calib_targets_core::{GrayImageView, GridAlignment, LabeledCorner, TargetDetection};

pub fn marker_cells(corners: &[LabeledCorner], inliers: &[usize]) -> Vec<MarkerCell> {
    build_marker_cells(&build_corner_map(corners, inliers))
}

pub fn charuco_corners(
    board: &CharucoBoard,
    chessboard: &TargetDetection,
    alignment: GridAlignment,
) -> Vec<LabeledCorner> {
    let alignment = CharucoAlignment {
        alignment,
        marker_inliers: Vec::new(),
    };
    map_charuco_corners(board, chessboard, &alignment).corners
}

#[derive(Clone, Copy, Debug)]
pub struct MatchSettings(pub(crate) BoardMatchConfig);

impl MatchSettings {
    /// What scores and weights depend on; for the rest, upstream's defaults.
    pub fn new([slope, floor]: [f32; 2], border_threshold: f32) -> Self {
        Self(BoardMatchConfig {
            bit_likelihood_slope: slope,
            per_bit_floor: floor,
            cell_weight_border_threshold: border_threshold,
            ..BoardMatchConfig::default()
        })
    }

    pub const fn with(mut self, px_per_square: f32, minimum_margin: f32) -> Self {
        self.0.px_per_square = px_per_square;
        self.0.alignment_min_margin = minimum_margin;
        self
    }
}

/// Where the matcher ended without a match.
#[derive(Clone, Copy, Debug, PartialEq, Eq)]
pub enum Gate {
    NoCells,
    EmptyBoard,
    TranslationWindow,
    Margin,
    NoMarkers,
}

/// What the matcher reports of its search.
#[derive(Clone, Copy, Debug)]
pub struct Selected {
    pub best: DiagHypothesis,
    pub runner_up: Option<DiagHypothesis>,
    pub total: usize,
    pub margin: f32,
}

#[derive(Debug, Default)]
pub struct MatchRun {
    pub gate: Option<Gate>,
    pub selected: Option<Selected>,
    /// For each cell on whose square the best placement expects a marker, score / bits².
    pub quotients: Vec<Option<f32>>,
    /// The markers, and the alignment of the corners.
    pub result: Option<(Vec<MarkerDetection>, GridAlignment)>,
}

pub(crate) const NO_PICTURE: GrayImageView<'static> = GrayImageView {
    width: 0,
    height: 0,
    data: &[],
};

impl MatchRun {
    pub fn new(
        board: &CharucoBoard,
        cells: &[MarkerCell],
        samples: &ScanDecodeConfig,
        settings: MatchSettings,
    ) -> Self {
        match_board_diag(board, cells, samples, &settings.0)
    }
}

/// As upstream's detector runs it, with a sink that does nothing. How many markers there are.
pub fn count_of_markers(
    board: &CharucoBoard,
    cells: &[MarkerCell],
    samples: &ScanDecodeConfig,
    settings: MatchSettings,
) -> usize {
    let matched = match_board(&NO_PICTURE, cells, board, samples, &settings.0);
    matched.map_or(0, |(markers, _)| markers.len())
}
