//! The driver of the matcher: our own file in the place of upstream's `board_match/diagnostics.rs`, which is not given.
//! A child of `board_match` may call what is private there; `mod.rs` hands on the names that it expects of this file.

use super::emit::emit_markers;
use super::hypothesis::{enumerate_hypotheses, rotation_index_for};
use super::score_matrix::{build_score_matrix, ScoreMatrix};
use super::{match_board_core, BoardMatchConfig, DiagHypothesis, MatchSink};
use crate::board::CharucoBoard;
use crate::public::{Gate, MatchRun, MatchSettings, Selected, NO_PICTURE};
use calib_targets_aruco::{CellSamples, MarkerCell, MarkerDetection, ScanDecodeConfig};
use calib_targets_core::GridAlignment;

/// The score matrix of some cells on a board. Where a field or a function is private to its file, the value comes
/// through one that is not.
pub struct BoardMatchDiagnostics {
    matrix: ScoreMatrix,
}

impl BoardMatchDiagnostics {
    /// None for a board without markers.
    pub fn new(
        board: &CharucoBoard,
        samples: &[Option<CellSamples>],
        settings: MatchSettings,
    ) -> Option<Self> {
        let matrix = build_score_matrix(board, samples, &settings.0)?;
        Some(Self { matrix })
    }

    /// Cell by cell, in each cell marker by marker, of each marker the four rotations.
    pub fn all(&self) -> &[f32] {
        &self.matrix.scores
    }

    /// Marker by marker, of each marker the four rotations.
    pub fn of_cell(&self, cell: usize) -> &[f32] {
        let count = self.matrix.num_markers * 4;
        &self.matrix.scores[cell * count..][..count]
    }

    /// What `cell_weight` gives for each cell, and 0 where the cell is not sampled.
    pub fn weights(&self) -> &[f32] {
        &self.matrix.weights
    }

    pub fn null_score(&self) -> f32 {
        -self.matrix.max_evidence()
    }

    pub fn evidence(&self, cell: usize, marker: u32, turn: u8) -> f32 {
        self.matrix.evidence(cell, marker, turn)
    }

    /// Makes the scores of this rotation those of rotation 0 and takes away all others: their placements are minus infinity,
    /// so that one of rotation 0 that comes before them is the best.
    pub fn keep_as_turn_0(&mut self, turn: u8) {
        for of_marker in self.matrix.scores.chunks_exact_mut(4) {
            of_marker.swap(0, turn.into());
            of_marker[1..].fill(f32::NEG_INFINITY);
        }
    }

    /// The best of `enumerate_hypotheses`; none where no translation puts all cells on the board.
    pub fn best(&self, board: &CharucoBoard, cells: &[MarkerCell]) -> Option<DiagHypothesis> {
        enumerate_hypotheses(board, cells, &self.matrix).map(|selection| selection.best)
    }

    /// `emit_markers`. Each of them has the code that `read_code` gives for its samples, and the grid point that
    /// `rotate_gc_top_left` gives for its cell.
    pub fn emitted(
        &self,
        board: &CharucoBoard,
        cells: &[MarkerCell],
        samples: &[Option<CellSamples>],
        alignment: &GridAlignment,
        px_per_square: f32,
    ) -> Vec<MarkerDetection> {
        emit_markers(
            board,
            cells,
            samples,
            &self.matrix,
            alignment,
            px_per_square,
        )
    }
}

/// The whole of `match_board_core`, with all that it reports to its sink.
pub(crate) fn match_board_diag(
    board: &CharucoBoard,
    cells: &[MarkerCell],
    samples: &ScanDecodeConfig,
    config: &BoardMatchConfig,
) -> MatchRun {
    let mut run = MatchRun::default();
    let result = match_board_core(&NO_PICTURE, cells, board, samples, config, &mut run);
    run.result = result.map(|(markers, corners)| (markers, corners.alignment));
    run
}

impl MatchSink for MatchRun {
    fn reject_no_cells(&mut self) {
        self.gate = Some(Gate::NoCells);
    }

    fn reject_empty_board(&mut self, _: &[MarkerCell], _: &[Option<CellSamples>], _: usize) {
        self.gate = Some(Gate::EmptyBoard);
    }

    fn reject_translation_window(
        &mut self,
        _: &[MarkerCell],
        _: &[Option<CellSamples>],
        _: &ScoreMatrix,
        _: usize,
    ) {
        self.gate = Some(Gate::TranslationWindow);
    }

    fn record_hypotheses(
        &mut self,
        best: &DiagHypothesis,
        runner_up: Option<&DiagHypothesis>,
        total: usize,
        margin: f32,
    ) {
        self.selected = Some(Selected {
            best: *best,
            runner_up: runner_up.copied(),
            total,
            margin,
        });
    }

    /// An emitted marker has the sigmoid of this quotient only.
    fn fill_cells_and_expected(
        &mut self,
        board: &CharucoBoard,
        cells: &[MarkerCell],
        _: &[Option<CellSamples>],
        matrix: &ScoreMatrix,
        alignment: &GridAlignment,
        bits: usize,
    ) {
        let turn = rotation_index_for(alignment);
        let quotient = |(place, cell): (usize, &MarkerCell)| {
            let id = board.marker_id_at(alignment.apply(cell.gc))?;
            Some(matrix.score(place, id, turn) / (bits * bits) as f32)
        };
        self.quotients = cells.iter().enumerate().map(quotient).collect();
    }

    fn reject_margin(&mut self, _margin: f32, _required: f32) {
        self.gate = Some(Gate::Margin);
    }

    fn reject_no_markers(&mut self) {
        self.gate = Some(Gate::NoMarkers);
    }
}

// Names that `mod.rs` expects besides.
pub struct CellBestMatch;
pub struct CellDiag;
pub struct RejectReason;
