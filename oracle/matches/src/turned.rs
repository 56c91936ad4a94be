//! Legacy boards with an even row count, of which upstream knows nothing, rotated by 90°: then they are boards without the
//! legacy flag with rows and columns exchanged. Every placement of the shot is one on the rotated board, with equal evidence
//! and the same contributing cells.

use crate::answer::{Alignment, Hypothesis, Marker, Matched, Placed, Selected, told};
use crate::model::{self, Model};
use crate::rust::Matching;
use cases::answer::Answer;
use records::{Shot, settings};
use theirs::{TurnedBoard, rotate_code, rotate_gc_top_left, turned};

/// The rotation by which square (i, j) becomes (rows - 1 - j, i) and board corner (i, j) becomes (rows - j, i): clockwise,
/// so that it is rotation 3 of points, followed by a translation.
const OF_POINTS: u8 = 3;
const BACK: u8 = 1;

/// What is printed rotates with the board: a code whose top left bit is set becomes one whose top right bit is.
const OF_CODES: u8 = 1;

/// A shot of such a board, as upstream takes it.
pub struct TurnedShot {
    pub shot: Shot,
    ids: TurnedBoard,
    /// Of the board as it is.
    rows: i32,
}

impl TurnedShot {
    /// A shot that passes the checks up to 8. Its cells stay as they are. Codes past those of markers stay too.
    pub fn new(shot: &Shot) -> Self {
        let ids = TurnedBoard::new(shot.rows, shot.cols);
        let mut codes = shot.codes.clone();
        let markers = usize::from(shot.rows) * usize::from(shot.cols) / 2;
        for (id, &code) in (0..).zip(&shot.codes[..markers]) {
            codes[ids.marker(id) as usize] = rotate_code(code, shot.bits, OF_CODES);
        }
        let shot_turned = Shot {
            map: shot.map & !settings::LEGACY,
            rows: shot.cols,
            cols: shot.rows,
            codes,
            ..shot.clone()
        };
        Self {
            shot: shot_turned,
            ids,
            rows: shot.rows.into(),
        }
    }

    /// The alignment on the rotated board that puts every cell on the square where this one puts it.
    pub fn carried(&self, at: Alignment) -> Alignment {
        let [tx, ty] = moved(OF_POINTS, [at.tx, at.ty]);
        Alignment {
            turn: (at.turn + OF_POINTS) % 4,
            tx: tx + self.rows - 1,
            ty,
        }
    }

    pub fn back(&self, at: Alignment) -> Alignment {
        back_by(at, self.rows - 1)
    }

    fn hypothesis_back(&self, found: Hypothesis) -> Hypothesis {
        Hypothesis {
            alignment: self.back(found.alignment),
            ..found
        }
    }

    fn selected_back(&self, selected: Selected) -> Selected {
        Selected {
            best: self.hypothesis_back(selected.best),
            runner_up: selected.runner_up.map(|next| self.hypothesis_back(next)),
            ..selected
        }
    }

    /// Of a match on the rotated board.
    fn placed_back(&self, selected: Selected, placed: Placed) -> Placed {
        let markers = placed.markers.into_iter();
        Placed::new(
            selected,
            back_by(placed.corners, self.rows),
            markers.map(|marker| self.marker_back(marker)).collect(),
        )
    }

    /// Another corner of its cell is top left on the board as it is.
    fn marker_back(&self, found: Marker) -> Marker {
        let turn = (found.turn + BACK) % 4;
        let cell = &self.shot.cells[found.cell];
        Marker {
            id: self.ids.marker_back(found.id),
            turn,
            point: rotate_gc_top_left(turn, [cell.u, cell.v]),
            ..found
        }
    }
}

/// Undoes the rotation and a translation by so many to the right.
fn back_by(at: Alignment, right: i32) -> Alignment {
    let [tx, ty] = moved(BACK, [at.tx - right, at.ty]);
    Alignment {
        turn: (at.turn + BACK) % 4,
        tx,
        ty,
    }
}

/// A translation, rotated. Cells lie within 4,096, boards have at most 32 rows, so that it has 16 bits.
fn moved(turn: u8, translation: [i32; 2]) -> [i32; 2] {
    turned(turn, translation.map(|t| t as i16))
}

/// What is compared of a search and of its match, all on the board as it is.
#[derive(Clone, Debug, PartialEq, Eq)]
pub struct Compared {
    /// In the order of their alignments.
    pub placements: Vec<Placement>,
    pub chosen: Option<Chosen>,
    /// Where both sides choose the same best: the answer. Where they choose another runner-up, without its alignment and its count
    /// of contributing cells.
    pub answer: Option<Answer>,
    pub is_same_runner_up: bool,
    /// That of the match: 0, or the refusal. Another best may have no marker.
    pub number: u32,
}

#[derive(Clone, Copy, Debug, PartialEq, Eq, PartialOrd, Ord)]
pub struct Placement {
    /// The words of its alignment.
    pub alignment: [u32; 3],
    /// As bits.
    pub evidence: Option<u32>,
    pub contributing_cells: usize,
}

/// Equal evidence may choose another placement, as the rotated ones come in another order; and another one may have another
/// count of contributing cells.
#[derive(Clone, Copy, Debug, PartialEq, Eq)]
pub struct Chosen {
    pub placements: usize,
    pub best: Option<u32>,
    pub runner_up: Option<Option<u32>>,
    pub margin: u32,
}

/// One side of a comparison.
pub struct Side {
    pub all: Vec<Hypothesis>,
    pub selected: Option<Selected>,
    pub matched: Matched,
}

/// Of a shot that passes the checks up to 14.
pub fn by_rust_and_model(shot: &Shot, slope_and_floor: [f32; 2]) -> [Compared; 2] {
    compared([by_rust(shot, slope_and_floor), Side::by_model(shot)])
}

pub fn compared(sides: [Side; 2]) -> [Compared; 2] {
    let is_same = |chosen: fn(Selected) -> Option<Hypothesis>| {
        let [rust, model] = sides.each_ref().map(|side| {
            let chosen = side.selected.and_then(chosen);
            chosen.map(|chosen| chosen.alignment)
        });
        rust == model
    };
    let is_same_best = is_same(|selected| Some(selected.best));
    let is_same_runner_up = is_same(|selected| selected.runner_up);
    sides.map(|side| side.compared(is_same_best, is_same_runner_up))
}

fn by_rust(shot: &Shot, slope_and_floor: [f32; 2]) -> Side {
    let turned = TurnedShot::new(shot);
    let matching = Matching::new(&turned.shot, slope_and_floor);
    let (selected, matched) = matching.selected_and_matched();
    let all = matching.hypotheses().into_iter();
    let selected = selected.map(|selected| turned.selected_back(selected));
    Side {
        all: all.map(|found| turned.hypothesis_back(found)).collect(),
        selected,
        matched: matched.map(|placed| {
            let selected = selected.expect("there is a best");
            turned.placed_back(selected, placed)
        }),
    }
}

impl Side {
    /// Of a shot that passes the checks up to 14.
    pub fn by_model(shot: &Shot) -> Self {
        let model = Model::new(shot);
        let all = model.hypotheses();
        Self {
            selected: model.selected(&all),
            all,
            matched: model::match_shot(shot),
        }
    }

    fn compared(self, is_same_best: bool, is_same_runner_up: bool) -> Compared {
        let bits = |found: &Hypothesis| found.evidence.map(f32::to_bits);
        let placements = self.all.iter().map(|found| Placement {
            alignment: found.alignment.words(),
            evidence: bits(found),
            contributing_cells: found.contributing_cells,
        });
        let mut placements: Vec<_> = placements.collect();
        placements.sort_unstable();
        let number = told(&self.matched).number;
        let matched = if is_same_runner_up {
            self.matched
        } else {
            self.matched.map(with_any_runner_up)
        };
        Compared {
            placements,
            chosen: self.selected.map(|selected| Chosen {
                placements: selected.placements,
                best: bits(&selected.best),
                runner_up: selected.runner_up.as_ref().map(bits),
                margin: selected.margin.to_bits(),
            }),
            answer: is_same_best.then(|| told(&matched)),
            is_same_runner_up,
            number,
        }
    }
}

/// As if every runner-up of this evidence were the same.
fn with_any_runner_up(mut placed: Placed) -> Placed {
    placed.runner_up = placed.runner_up.map(|next| Hypothesis {
        evidence: next.evidence,
        ..placed.best
    });
    placed
}
