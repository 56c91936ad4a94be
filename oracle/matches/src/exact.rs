//! The exact evidence of every placement, as document 01 defines it, in integer multiples of 2⁻²⁹⁸; and how far the reported
//! one is from it.

use crate::answer::Hypothesis;
use crate::model::Model;
use crate::wide::Wide;
use records::Shot;
use std::collections::HashMap;

/// A whole number of 2⁻¹⁴⁹ becomes one of 2⁻²⁹⁸.
const SHIFT: usize = 149;

/// How far reported evidence is from the exact one, in the placement where it is farthest.
#[derive(Clone, Copy, Debug)]
pub struct Worst {
    /// By N × (N + 67) / 65,536: more than 1 breaks the rule. None if no placement has a number.
    pub ratio: Option<f64>,
    pub breaks_the_rule: bool,
    pub placements: usize,
}

/// N × (N + 67) / 65,536.
fn allowed(cells: usize) -> Wide {
    let cells = cells as u64;
    Wide::new(cells * (cells + 67)).shifted(282)
}

/// A shot that comes as far as the search.
pub fn worst(shot: &Shot) -> Worst {
    let model = Model::new(shot);
    let reported = model.hypotheses();
    let mut exact = Exact::new(shot, &model);
    let allowed = allowed(shot.cells.len());
    let mut worst = Worst {
        ratio: None,
        breaks_the_rule: false,
        placements: reported.len(),
    };
    for hypothesis in &reported {
        let Some(error) = exact.error(hypothesis) else {
            continue;
        };
        let ratio = error.about() / allowed.about();
        worst.ratio = Some(worst.ratio.map_or(ratio, |most| most.max(ratio)));
        worst.breaks_the_rule |= error.is_above(allowed);
    }
    worst
}

struct Exact<'a> {
    model: &'a Model<'a>,
    weights: Vec<Wide>,
    null_score: Wide,
    /// Sum of the entries less null score, of a cell, a marker and a rotation.
    evidence: HashMap<(usize, usize, u8), Wide>,
}

impl<'a> Exact<'a> {
    fn new(shot: &'a Shot, model: &'a Model<'a>) -> Self {
        let weights = (0..shot.cells.len()).map(|cell| Wide::of_float(model.weight(cell)));
        Self {
            model,
            weights: weights.collect(),
            null_score: Wide::of_float(model.null_score()),
            evidence: HashMap::new(),
        }
    }

    /// How far the reported evidence is from the exact one. Where it is none, so is the other.
    fn error(&mut self, reported: &Hypothesis) -> Option<Wide> {
        let contributing = self.model.contributing(reported.alignment);
        assert_eq!(reported.evidence.is_some(), !contributing.is_empty());
        let number = Wide::of_float(reported.evidence?).shifted(SHIFT);
        let turn = reported.alignment.turn;
        let exact = contributing
            .into_iter()
            .map(|(cell, id)| self.weights[cell] * self.cell(cell, id, turn))
            .fold(Wide::ZERO, |sum, weighted| sum + weighted);
        Some((number - exact).size())
    }

    fn cell(&mut self, cell: usize, id: usize, turn: u8) -> Wide {
        *self.evidence.entry((cell, id, turn)).or_insert_with(|| {
            let entries = self.model.entries(cell, id, turn).map(Wide::of_float);
            entries.fold(Wide::ZERO, |sum, entry| sum + entry) - self.null_score
        })
    }
}
