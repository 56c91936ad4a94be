//! The weight of a cell: that of document 01, then the cut of document 02, 2.8.

use records::{Cell, Shot};
use theirs::cut;

/// What the weight of a cell is used for.
#[derive(Clone, Copy, Debug, PartialEq, Eq)]
pub enum Use {
    Evidence,
    Count,
    Capacity,
    Emission,
}

pub const USES: [Use; 4] = [Use::Evidence, Use::Count, Use::Capacity, Use::Emission];

/// What a weight is made of.
#[derive(Clone, Copy, Debug)]
pub struct Uncut {
    /// By document 01.
    pub weight: f32,
    /// None for a cell that is not sampled.
    pub fraction: Option<f32>,
    pub least: f32,
}

impl Uncut {
    pub fn new(shot: &Shot, cell: &Cell) -> Self {
        let sample = cell.sample.as_ref();
        let fraction = sample.map(|sample| f32::from_bits(sample.fraction));
        let threshold = f32::from_bits(shot.border_threshold);
        Self {
            weight: fraction.map_or(0.0, |fraction| sampled_weight(threshold, fraction)),
            fraction,
            least: f32::from_bits(shot.least_weight),
        }
    }

    /// Of each cell of a shot.
    pub fn all(shot: &Shot) -> Vec<Self> {
        let cells = shot.cells.iter();
        cells.map(|cell| Self::new(shot, cell)).collect()
    }

    pub fn is_cut(&self) -> bool {
        self.weight < self.least
    }

    /// Is the weight above 0, and 0 after the cut?
    pub fn is_lost(&self) -> bool {
        self.weight > 0.0 && self.is_cut()
    }

    /// Is the fraction of a sampled cell below the least weight, whatever the weight is?
    pub fn is_fraction_below(&self) -> bool {
        self.fraction.is_some_and(|fraction| fraction < self.least)
    }
}

fn sampled_weight(threshold: f32, fraction: f32) -> f32 {
    if threshold <= 0.0 {
        return 1.0;
    }
    let ratio = fraction / threshold;
    if ratio > 1.0 { 1.0 } else { ratio }
}

/// The weight of a cell, the same in every use.
pub fn weight(_: Use, uncut: &Uncut) -> f32 {
    cut(uncut.weight, uncut.least)
}
