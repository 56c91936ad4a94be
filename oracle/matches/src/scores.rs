//! The scores that a match with scores writes to the caller's array (document 02, 2.6), and what the arrays after some calls
//! show of them.
//!
//! A score depends on a cell and a code, and not on where the board has its markers. So upstream's matrix serves for legacy
//! boards as it is: its board of the same size has as many markers, with the same codes.

use crate::given::markers_of;
use crate::model::Model;
use crate::rust::Matching;
use crate::weights::Uncut;
use records::Shot;

/// No array needs more elements: 256 cells, 512 markers, 4 rotations.
pub const MOST_SCORES: usize = 256 * 512 * 4;

/// How many elements the array needs.
pub fn count(shot: &Shot) -> usize {
    shot.cells.len() * markers_of(shot.rows, shot.cols) * 4
}

/// Those of upstream's `build_score_matrix`, of a shot that passes the checks up to 10 and has a table by the formula.
pub(crate) fn by_rust(shot: &Shot, slope_and_floor: [f32; 2]) -> Vec<u32> {
    bits(Matching::new(shot, slope_and_floor).scores())
}

/// By the rules of document 01 alone.
pub(crate) fn by_rule(shot: &Shot) -> Vec<u32> {
    bits(Model::new(shot).scores())
}

fn bits(scores: Vec<f32>) -> Vec<u32> {
    scores.into_iter().map(f32::to_bits).collect()
}

/// An array before a call that fills it, and what it then has from its start on.
pub struct Filled<'a> {
    pub shot: &'a Shot,
    pub before: &'a [u32],
    pub scores: &'a [u32],
}

impl Filled<'_> {
    /// Of a cell the scores, and the elements before the call.
    fn of_cell(&self, cell: usize) -> [&[u32]; 2] {
        let count = self.scores.len() / self.shot.cells.len();
        [self.scores, self.before].map(|list| &list[cell * count..][..count])
    }

    /// Is there a cell, sampled or not, of which this holds? It gets the scores, and the elements before the call.
    fn has_cell(&self, is_sampled: bool, is_it: impl Fn(usize, [&[u32]; 2]) -> bool) -> bool {
        let cells = self.shot.cells.iter().enumerate();
        let mut cells = cells.filter(|(_, cell)| cell.sample.is_some() == is_sampled);
        cells.any(|(place, _)| is_it(place, self.of_cell(place)))
    }

    fn is_of_size(&self, size: [u8; 2]) -> bool {
        [self.shot.rows, self.shot.cols] == size
    }
}

/// What an array may show, each excluding a wrong way to fill it.
pub struct Case {
    pub name: &'static str,
    is_so: fn(&Filled) -> bool,
}

const fn case(name: &'static str, is_so: fn(&Filled) -> bool) -> Case {
    Case { name, is_so }
}

pub const CASES: [Case; 12] = [
    case("an unsampled cell where no element was 0", |filled| {
        filled.has_cell(false, |_, [_, before]| before.iter().all(|&bits| bits != 0))
    }),
    case("a cell of weight 0 with other scores than 0", |filled| {
        let model = Model::new(filled.shot);
        filled.has_cell(true, |cell, [scores, _]| {
            model.weight(cell) == 0.0 && scores.iter().any(|&bits| bits != 0)
        })
    }),
    case("rotations 1 and 3 with different scores", |filled| {
        let mut of_markers = filled.scores.chunks(4);
        of_markers.any(|of_marker| of_marker[1] != of_marker[3])
    }),
    case("two markers with different scores", |filled| {
        filled.has_cell(true, |_, [scores, _]| scores[..4] != scores[4..8])
    }),
    case("several cells, more codes than markers", |filled| {
        let shot = filled.shot;
        shot.cells.len() > 1 && shot.codes.len() > markers_of(shot.rows, shot.cols)
    }),
    case("an odd number of squares", |filled| {
        filled.shot.rows % 2 == 1 && filled.shot.cols % 2 == 1
    }),
    case("elements after the scores", |filled| {
        filled.before.len() > filled.scores.len()
    }),
    case("2 × 2 squares", |filled| filled.is_of_size([2, 2])),
    case("one cell on 32 × 32 squares", |filled| {
        filled.is_of_size([32, 32]) && filled.shot.cells.len() == 1
    }),
    case("codes of 1 × 1 bit", |filled| filled.shot.bits == 1),
    case("codes of 8 × 8 bits", |filled| filled.shot.bits == 8),
    case("a cell that is cut with other scores than 0", |filled| {
        let cells = Uncut::all(filled.shot);
        filled.has_cell(true, |cell, [scores, _]| {
            cells[cell].is_lost() && scores.iter().any(|&bits| bits != 0)
        })
    }),
];

/// In how many arrays each case comes up, by the places of `CASES`.
#[derive(Clone, Debug, Default)]
pub struct Shown(pub [usize; CASES.len()]);

impl Shown {
    pub fn add(&mut self, filled: &Filled) {
        for (count, case) in self.0.iter_mut().zip(&CASES) {
            *count += usize::from((case.is_so)(filled));
        }
    }
}
