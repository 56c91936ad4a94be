//! A shot in the shapes of upstream, and the answer of its matcher. Upstream has no least weight (document 02, 2.8): a cell that
//! is cut comes to it with the fraction 0, by which its weight is 0.

use crate::answer::{Alignment, Hypothesis, Marker, Matched, Placed, Selected, below_minimum};
use crate::questions::board;
use calib_targets_aruco::{
    CellSamples, MarkerCell, MarkerDetection, ScanDecodeConfig, corners_of_place, place_of_corners,
};
use calib_targets_charuco::{
    CharucoBoard, DiagHypothesis, Gate, MatchRun, MatchSettings, ScoredCells, count_of_markers,
};
use calib_targets_core::{Coord, GRID_TRANSFORMS_C4, GridAlignment};
use cases::answer::Answer;
use records::Shot;
use theirs::{cell_samples, cut};

/// A shot that passes the checks 1 to 10. That two markers are equal up to rotation does not matter to upstream.
pub struct Matching {
    board: CharucoBoard,
    cells: Vec<MarkerCell>,
    samples: Vec<Option<CellSamples>>,
    settings: MatchSettings,
}

/// The samples for one run, which uses them up.
pub struct Samples(ScanDecodeConfig);

impl Matching {
    /// Upstream takes the slope and floor in the place of a table.
    pub fn new(shot: &Shot, slope_and_floor: [f32; 2]) -> Self {
        let cells = shot.cells.iter().enumerate().map(|(place, cell)| {
            let point = Coord::new(cell.u.into(), cell.v.into());
            MarkerCell::new(point, corners_of_place(place))
        });
        let samples = shot.cells.iter().map(|cell| {
            let sample = cell.sample.as_ref()?;
            let fraction = f32::from_bits(sample.fraction);
            Some(cell_samples(shot.grid(sample), fraction))
        });
        let settings = MatchSettings::new(slope_and_floor, f32::from_bits(shot.border_threshold));
        let [px, margin] = [shot.px_per_square, shot.minimum_margin].map(f32::from_bits);
        let mut matching = Self {
            board: board(shot).expect("a board that is accepted"),
            cells: cells.collect(),
            samples: samples.collect(),
            settings: settings.with(px, margin),
        };
        let least_weight = f32::from_bits(shot.least_weight);
        if least_weight > 0.0 {
            matching.cut(least_weight);
        }
        matching
    }

    /// By upstream's weights. With a border threshold of at most 0 they are all 1, and none is cut.
    fn cut(&mut self, least_weight: f32) {
        let weights = self.score_matrix().weights().to_vec();
        for (sample, weight) in self.samples.iter_mut().zip(weights) {
            if let Some(sample) = sample
                && cut(weight, least_weight) != weight
            {
                sample.border_black_fraction = 0.0;
            }
        }
        let weights = self.score_matrix().weights().to_vec();
        assert!(weights.iter().all(|&w| w == 0.0 || w >= least_weight));
    }

    fn score_matrix(&self) -> ScoredCells {
        let matrix = ScoredCells::new(&self.board, &self.samples, self.settings);
        matrix.expect("a board that is made has markers")
    }

    pub fn samples(&self) -> Samples {
        Samples(ScanDecodeConfig::new(self.samples.clone()))
    }

    /// The matcher as upstream's detector calls it, for measuring.
    pub fn count_of_markers(&self, samples: &Samples) -> usize {
        count_of_markers(&self.board, &self.cells, &samples.0, self.settings)
    }

    pub fn matched(&self) -> Matched {
        self.selected_and_matched().1
    }

    /// Also what the search chose, which a refusal by 17 does not return; none where it came to no placement.
    pub fn selected_and_matched(&self) -> (Option<Selected>, Matched) {
        let samples = self.samples();
        let run = MatchRun::new(&self.board, &self.cells, &samples.0, self.settings);
        let selected = run.selected.as_ref().map(|chosen| Selected {
            best: hypothesis(&chosen.best),
            runner_up: chosen.runner_up.as_ref().map(hypothesis),
            margin: chosen.margin,
            placements: chosen.total,
        });
        let chosen = || selected.expect("there is a best");
        let matched = match run.gate {
            Some(Gate::NoCells) => Err(Answer::refused(11)),
            Some(Gate::TranslationWindow) => Err(Answer::refused(15)),
            Some(Gate::Margin) => Err(below_minimum(chosen().margin)),
            Some(Gate::NoMarkers) => Err(Answer::refused(17)),
            Some(Gate::EmptyBoard) => panic!("a board that is made has markers"),
            None => Ok(placed(chosen(), run)),
        };
        (selected, matched)
    }

    /// All scores of upstream's matrix, with 0 in place of the minus infinity of a cell that is not sampled.
    pub fn scores(&self) -> Vec<f32> {
        let mut scores = self.score_matrix().all().to_vec();
        let of_cells = scores.chunks_mut(self.board.marker_count() * 4);
        for (of_cell, sample) in of_cells.zip(&self.samples) {
            if sample.is_none() {
                assert!(of_cell.iter().all(|&score| score == f32::NEG_INFINITY));
                of_cell.fill(0.0);
            }
        }
        scores
    }

    /// Every placement of a shot that has cells. The search returns the best alone, so it is given one placement at a time:
    /// two cells that are not sampled, on opposite squares of the board, leave one translation in each rotation, and of the
    /// scores only those of one rotation are left. The cells are rotated before and these scores are those of rotation 0,
    /// which the search comes to first: so it returns that placement also where no cell contributes and all are minus
    /// infinity. Only translations that put the first cell on the board are tried.
    pub fn hypotheses(&self) -> Vec<Hypothesis> {
        let [cols, rows] = [self.board.spec().cols, self.board.spec().rows].map(|n| n as i32);
        let samples = [&self.samples[..], &[None, None]].concat();
        let mut all = Vec::new();
        for turn in 0..4 {
            let transform = GRID_TRANSFORMS_C4[usize::from(turn)];
            let cell_at = |point| MarkerCell::new(point, Default::default());
            let turned = self.cells.iter().map(|cell| transform.apply(cell.gc));
            let turned: Vec<MarkerCell> = turned.map(cell_at).collect();
            let scores = ScoredCells::new(&self.board, &samples, self.settings);
            let mut scores = scores.expect("a board that is made has markers");
            scores.keep_as_turn_0(turn);
            let first = turned[0].gc;
            for tx in -first.u..cols - first.u {
                for ty in -first.v..rows - first.v {
                    let opposite = [[0, 0], [cols - 1, rows - 1]];
                    let opposite = opposite.map(|[i, j]| cell_at(Coord::new(i - tx, j - ty)));
                    let cells = [&turned[..], &opposite].concat();
                    let best = scores.best(&self.board, &cells);
                    all.extend(best.map(|best| {
                        assert_eq!((best.rotation, best.translation), (0, [tx, ty]));
                        Hypothesis {
                            alignment: Alignment { turn, tx, ty },
                            ..hypothesis(&best)
                        }
                    }));
                }
            }
        }
        all
    }
}

fn placed(selected: Selected, run: MatchRun) -> Placed {
    let (markers, corners) = run.result.expect("there is a match");
    let markers = markers.iter().map(|found| marker(found, &run.quotients));
    Placed::new(selected, alignment(&corners), markers.collect())
}

/// Upstream's minus infinity is none. The count is its own, by the feature `diagnostics`.
fn hypothesis(found: &DiagHypothesis) -> Hypothesis {
    let [tx, ty] = found.translation;
    Hypothesis {
        alignment: Alignment {
            turn: found.rotation,
            tx,
            ty,
        },
        evidence: (found.score != f32::NEG_INFINITY).then_some(found.score),
        contributing_cells: found.contributing_cells,
    }
}

fn alignment(transform: &GridAlignment) -> Alignment {
    let turns = GRID_TRANSFORMS_C4.iter();
    let turn = turns
        .map(|turn| turn.matrix())
        .position(|matrix| matrix == transform.matrix());
    let [tx, ty] = transform.translation();
    Alignment {
        turn: turn.expect("a rotation by 90°") as u8,
        tx,
        ty,
    }
}

fn marker(found: &MarkerDetection, quotients: &[Option<f32>]) -> Marker {
    let corners = found.corners_img.as_ref().expect("given with its cell");
    let cell = place_of_corners(corners);
    Marker {
        cell,
        id: found.id,
        point: [found.gc.u, found.gc.v],
        turn: found.rotation,
        differing: found.hamming.into(),
        code: found.code,
        quotient: quotients[cell].expect("a marker is expected there"),
        fraction: found.border_score,
        corners: found.corners_rect.map(|corner| [corner.x, corner.y]),
    }
}
