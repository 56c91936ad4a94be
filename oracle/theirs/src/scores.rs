//! `board_match/`: the scores and weights of sampled cells, and what an emitted marker has of its cell.

use crate::likelihood::BUILT_IN;
use calib_targets_aruco::{CellSamples, Dictionary, MarkerCell, MarkerDetection};
use calib_targets_charuco::{CharucoBoard, CharucoBoardSpec, MatchSettings};
use calib_targets_core::{Coord, GRID_TRANSFORMS_C4};
use cases::cells::Cell;

pub use calib_targets_charuco::ScoredCells as Scores;

/// Upstream's default.
pub const BORDER_THRESHOLD: f32 = 0.5;

/// Cells in the shape that upstream takes.
pub struct Samples(Vec<Option<CellSamples>>);

impl Samples {
    /// Sampled cells, with a border that is wholly black.
    pub fn new(cells: &[Cell]) -> Self {
        let samples = cells.iter().cloned().map(|cell| cell_samples(cell, 1.0));
        Self(samples.map(Some).collect())
    }
}

pub fn cell_samples(cell: Cell, fraction: f32) -> CellSamples {
    CellSamples {
        cells_per_side: Cell::side([cell.bits, cell.border]),
        mean_grid: cell.grid,
        otsu_threshold: cell.threshold,
        border_black_fraction: fraction,
        border_bits: cell.border.into(),
        bits_per_side: cell.bits.into(),
    }
}

/// A board by its codes, which is all that scores depend on.
pub struct ScoreBoard(CharucoBoard);

impl ScoreBoard {
    /// A marker for each of two codes or more: a board of two rows has as many as columns.
    pub fn new(bits: u8, codes: &[u64]) -> Self {
        Self::of_dictionary(Dictionary::new(usize::from(bits), codes.to_vec().leak()))
    }

    fn of_dictionary(dictionary: Dictionary) -> Self {
        let cols = dictionary.codes().len() as u32;
        let spec = CharucoBoardSpec::new(2, cols, 1.0, 0.5, dictionary);
        Self(CharucoBoard::new(spec).expect("a board that upstream accepts"))
    }

    /// By slope and floor, as a likelihood table is.
    pub fn scores(&self, samples: &Samples, slope_and_floor: [f32; 2]) -> Scores {
        self.score(&samples.0, slope_and_floor, BORDER_THRESHOLD)
    }

    fn score(
        &self,
        samples: &[Option<CellSamples>],
        slope_and_floor: [f32; 2],
        border_threshold: f32,
    ) -> Scores {
        let settings = MatchSettings::new(slope_and_floor, border_threshold);
        Scores::new(&self.0, samples, settings).expect("there are markers")
    }
}

static NO_BITS: [u64; 2] = [0; 2];
static ALL_BITS: [u64; 2] = [u64::MAX; 2];

fn board_of_two(bits: u8, codes: &'static [u64; 2]) -> ScoreBoard {
    ScoreBoard::of_dictionary(Dictionary::new(usize::from(bits), codes))
}

/// A cell that shows a code of all bits beyond doubt.
fn black(bits: u8, border: u8) -> Cell {
    let side = Cell::side([bits, border]);
    Cell::new([bits, border], 255, vec![0; side * side])
}

pub fn null_score(bits: u8) -> f32 {
    let board = board_of_two(bits, &NO_BITS);
    board.scores(&Samples(Vec::new()), BUILT_IN).null_score()
}

/// The fraction does not count where the cell is not sampled.
pub fn cell_weight(border_threshold: f32, sampled: bool, fraction: f32) -> f32 {
    let samples = sampled.then(|| cell_samples(black(1, 1), fraction));
    let scores = board_of_two(1, &NO_BITS).score(&[samples], BUILT_IN, border_threshold);
    scores.weights()[0]
}

/// Document 02, 2.8, of which upstream has nothing: "A cell whose weight is below it has weight 0; an equal one keeps its weight."
pub fn cut(weight: f32, least_weight: f32) -> f32 {
    if weight < least_weight { 0.0 } else { weight }
}

/// The marker that upstream emits in a cell at a grid point, `turn` being 0 to 3. It reads a cell when it emits a marker,
/// and emits one only where its score is good. So the score is that of a black cell and a black marker; the cell comes in
/// its place when the marker is emitted.
fn emitted(cell: &Cell, turn: u8, [u, v]: [i32; 2]) -> MarkerDetection {
    let board = board_of_two(cell.bits, &ALL_BITS);
    let scores = board.scores(&Samples::new(&[black(cell.bits, cell.border)]), BUILT_IN);
    let place = MarkerCell::new(Coord::new(u, v), Default::default());
    let turn = GRID_TRANSFORMS_C4[usize::from(turn)];
    // Marker 0 is in the square (1, 0).
    let turned = turn.apply(place.gc);
    let alignment = turn.with_translation([1 - turned.u, -turned.v]);
    let cell = Some(cell_samples(cell.clone(), 1.0));
    let mut markers = scores.emitted(&board.0, &[place], &[cell], &alignment, 1.0);
    markers.remove(0)
}

pub fn read_code(cell: &Cell) -> u64 {
    emitted(cell, 0, [0, 0]).code
}

/// The corner of a cell that `turn` rotations by 90° make its top left one.
pub fn rotate_gc_top_left(turn: u8, point: [i16; 2]) -> [i32; 2] {
    let gc = emitted(&black(1, 1), turn, point.map(i32::from)).gc;
    [gc.u, gc.v]
}
