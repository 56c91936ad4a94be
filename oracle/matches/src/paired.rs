//! A legacy board with an even row count and an odd column count is a board without the flag rotated by 180° (document 02, 2.7).
//! So upstream places the restated shot itself. Every placement of the one is one of the other, with equal evidence and the
//! same contributing cells. The pairing undoes itself, so that it carries both ways.

use crate::answer::{Alignment, Hypothesis, Marker, Placed, Selected};
use crate::given::markers_of;
use crate::restated::{is_even_legacy, is_reversed, restated};
use crate::rust::Matching;
use crate::turned::{Compared, Side, compared};
use records::Shot;

pub struct PairedShot {
    /// Without the flag.
    pub shot: Shot,
    cols: i32,
    rows: i32,
    markers: u32,
}

/// Are the rows even and the columns odd, on a legacy board?
pub const fn is_paired(shot: &Shot) -> bool {
    is_reversed(shot) && !is_even_legacy(shot)
}

impl PairedShot {
    /// Of a shot that passes the checks up to 8, with such a board.
    pub fn new(shot: &Shot) -> Self {
        assert!(is_paired(shot));
        Self {
            shot: restated(shot),
            cols: shot.cols.into(),
            rows: shot.rows.into(),
            markers: markers_of(shot.rows, shot.cols) as u32,
        }
    }

    /// Of cells.
    pub fn alignment(&self, at: Alignment) -> Alignment {
        opposite(at, [self.cols - 1, self.rows - 1])
    }

    /// Of corners.
    pub fn corner_alignment(&self, at: Alignment) -> Alignment {
        opposite(at, [self.cols, self.rows])
    }

    fn hypothesis(&self, found: Hypothesis) -> Hypothesis {
        Hypothesis {
            alignment: self.alignment(found.alignment),
            ..found
        }
    }

    fn selected(&self, selected: Selected) -> Selected {
        Selected {
            best: self.hypothesis(selected.best),
            runner_up: selected.runner_up.map(|next| self.hypothesis(next)),
            ..selected
        }
    }

    fn placed(&self, placed: Placed) -> Placed {
        let markers = placed.markers.into_iter();
        Placed {
            best: self.hypothesis(placed.best),
            runner_up: placed.runner_up.map(|next| self.hypothesis(next)),
            corners: self.corner_alignment(placed.corners),
            markers: markers.map(|marker| self.marker(marker)).collect(),
            ..placed
        }
    }

    /// The point is the opposite corner of the cell.
    fn marker(&self, found: Marker) -> Marker {
        let cell = &self.shot.cells[found.cell];
        let [u, v] = [cell.u, cell.v].map(i32::from);
        let [x, y] = found.point;
        Marker {
            id: self.markers - 1 - found.id,
            point: [2 * u + 1 - x, 2 * v + 1 - y],
            turn: (found.turn + 2) % 4,
            ..found
        }
    }
}

fn opposite(at: Alignment, [right, down]: [i32; 2]) -> Alignment {
    Alignment {
        turn: (at.turn + 2) % 4,
        tx: right - at.tx,
        ty: down - at.ty,
    }
}

/// What upstream finds for the restated shot, carried to the shot, and what the rules find for the shot, which has cells and
/// passes the checks up to 14. Without a formula the rules are used in upstream's place.
pub fn by_rust_and_model(shot: &Shot, slope_and_floor: Option<[f32; 2]>) -> [Compared; 2] {
    let paired = PairedShot::new(shot);
    let side = match slope_and_floor {
        Some(slope_and_floor) => {
            let matching = Matching::new(&paired.shot, slope_and_floor);
            let (selected, matched) = matching.selected_and_matched();
            Side {
                all: matching.hypotheses(),
                selected,
                matched,
            }
        }
        None => Side::by_model(&paired.shot),
    };
    let all = side.all.into_iter();
    let carried = Side {
        all: all.map(|found| paired.hypothesis(found)).collect(),
        selected: side.selected.map(|selected| paired.selected(selected)),
        matched: side.matched.map(|placed| paired.placed(placed)),
    };
    compared([carried, Side::by_model(shot)])
}

/// Has another placement the evidence of the best? Has another one than these two that of the runner-up?
#[derive(Clone, Copy, Debug, Default, PartialEq, Eq)]
pub struct Ties {
    pub best: bool,
    pub runner_up: bool,
}

impl Ties {
    /// Of a search that comes to a placement.
    pub fn of(found: &Compared) -> Self {
        let Some(chosen) = found.chosen else {
            return Self::default();
        };
        let count = |evidence: Option<u32>| {
            let all = found.placements.iter();
            all.filter(|placement| placement.evidence == evidence)
                .count()
        };
        let is_shared = chosen.runner_up == Some(chosen.best);
        let least = if is_shared { 2 } else { 1 };
        Self {
            best: is_shared,
            runner_up: chosen
                .runner_up
                .is_some_and(|evidence| count(evidence) > least),
        }
    }

    pub const fn none(self) -> bool {
        !self.best && !self.runner_up
    }
}
