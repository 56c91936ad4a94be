//! Wrong programs for the least weight, which some record must show to be wrong.

use super::Cut;
use crate::answer::told;
use crate::model::match_by;
use crate::questions::match_shot;
use crate::weights::{USES, Uncut, Use, weight};
use records::{Shot, settings};

pub struct Wrong {
    pub name: &'static str,
    program: Program,
}

/// How a program is wrong.
#[derive(Clone, Copy)]
enum Program {
    /// Its weights.
    Weight(fn(&Uncut) -> f32),
    /// It takes the weights before the cut, in one use.
    Uncut(Use),
    /// What it takes for the shot.
    Shot(fn(&Shot) -> Shot),
}

const fn wrong(name: &'static str, program: Program) -> Wrong {
    Wrong { name, program }
}

const fn cut_if(is_cut: bool, weight: f32) -> f32 {
    if is_cut { 0.0 } else { weight }
}

pub const WRONG: [Wrong; 10] = [
    wrong(
        "an equal weight cut",
        Program::Weight(|uncut| cut_if(uncut.weight <= uncut.least, uncut.weight)),
    ),
    wrong(
        "the fraction compared",
        Program::Weight(|uncut| cut_if(uncut.is_fraction_below(), uncut.weight)),
    ),
    wrong(
        "raised to the least weight",
        Program::Weight(|uncut| match uncut.fraction {
            Some(_) if uncut.is_cut() => uncut.least,
            _ => uncut.weight,
        }),
    ),
    wrong("no weight cut", Program::Weight(|uncut| uncut.weight)),
    wrong("not cut in the evidence", Program::Uncut(Use::Evidence)),
    wrong("not cut in the counts", Program::Uncut(Use::Count)),
    wrong("not cut in the capacity", Program::Uncut(Use::Capacity)),
    wrong("not cut in the emission", Program::Uncut(Use::Emission)),
    wrong("cut cells left out", Program::Shot(without_cut_cells)),
    wrong(
        "least weight before the table",
        Program::Shot(with_fields_exchanged),
    ),
];

fn without_cut_cells(shot: &Shot) -> Shot {
    let mut kept = shot.clone();
    kept.cells.retain(|cell| !Uncut::new(shot, cell).is_cut());
    kept
}

/// The first entry of the table is taken for the least weight, and the least weight for the last entry.
fn with_fields_exchanged(shot: &Shot) -> Shot {
    let mut moved = shot.clone();
    if shot.map & settings::TABLE != 0 {
        moved.table.rotate_left(1);
        let [.., last] = &mut moved.table;
        std::mem::swap(&mut moved.least_weight, last);
    }
    moved
}

impl Program {
    fn weight(self, of: Use, uncut: &Uncut) -> f32 {
        match self {
            Self::Weight(weight) => weight(uncut),
            Self::Uncut(exception) if of == exception => uncut.weight,
            _ => weight(of, uncut),
        }
    }

    /// By bits, since a weight of -0.0 that is not cut stays.
    fn changes_weight(self, of: Use, uncut: &Uncut) -> bool {
        self.weight(of, uncut).to_bits() != weight(of, uncut).to_bits()
    }
}

impl Wrong {
    /// Does a shot that comes to the search have another answer by it?
    pub(super) fn is_shown_by(&self, shown: &Cut) -> bool {
        let program = self.program;
        let other = match program {
            Program::Shot(make) => {
                let other = make(shown.shot);
                if other == *shown.shot {
                    return false;
                }
                match_shot(&other, usize::MAX)
            }
            _ => {
                let is_other = |of| {
                    let mut cells = shown.cells.iter();
                    cells.any(|uncut| program.changes_weight(of, uncut))
                };
                // Most shots have the same weights by it, and need no match.
                if !USES.into_iter().any(is_other) {
                    return false;
                }
                match_by(shown.shot, |of, uncut| program.weight(of, uncut))
            }
        };
        told(&other) != *shown.answer
    }

    /// Does the weight of a cell show it? None where every weight by itself is right.
    pub fn is_shown_by_weight(&self, uncut: &Uncut) -> Option<bool> {
        let is_shown = |of| self.program.changes_weight(of, uncut);
        matches!(self.program, Program::Weight(_)).then(|| USES.into_iter().all(is_shown))
    }
}
