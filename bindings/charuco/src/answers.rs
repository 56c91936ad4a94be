//! The results of the entry points, and how each is read from its words.

use crate::words::{
    CELL_WORDS, CORNER_WORDS, HEADER_WORDS, MARKER_CELL_WORDS, MARKER_WORDS, MATCH_WORDS,
    VIOLATION_WORDS,
};

/// A rotation by 90° × `turn`, then a translation.
#[derive(Clone, Copy, Debug, PartialEq, Eq)]
pub struct Alignment {
    pub turn: u32,
    pub tx: i32,
    pub ty: i32,
}

impl Alignment {
    fn new([turn, tx, ty]: [u32; 3]) -> Self {
        Self {
            turn,
            tx: tx.cast_signed(),
            ty: ty.cast_signed(),
        }
    }
}

/// Map byte, settings (the default where the record leaves one out), board, and numbers of codes and cells.
#[derive(Clone, Copy, Debug, PartialEq)]
#[non_exhaustive]
pub struct Header {
    pub map: u32,
    pub minimum_margin: f32,
    pub border_threshold: f32,
    pub px_per_square: f32,
    /// A cell with a smaller weight has weight 0.
    pub least_weight: f32,
    pub spec: crate::BoardSpec,
    pub codes: usize,
    pub cells: usize,
}

impl Header {
    pub(crate) fn new(words: [u32; HEADER_WORDS]) -> Self {
        Self {
            map: words[0],
            minimum_margin: f32::from_bits(words[1]),
            border_threshold: f32::from_bits(words[2]),
            px_per_square: f32::from_bits(words[3]),
            least_weight: f32::from_bits(words[13]),
            spec: crate::BoardSpec {
                rows: words[4],
                cols: words[5],
                bits: words[6],
                border_bits: words[7],
                legacy_pattern: words[12] == 1,
                cell_size: f32::from_bits(words[8]),
                marker_size_rel: f32::from_bits(words[9]),
            },
            codes: words[10] as usize,
            cells: words[11] as usize,
        }
    }
}

/// The sample of a cell, without its grid.
#[derive(Clone, Copy, Debug, PartialEq)]
pub struct Sample {
    pub fraction: f32,
    pub threshold: u8,
}

#[derive(Clone, Copy, Debug, PartialEq)]
pub struct Cell {
    pub u: i32,
    pub v: i32,
    pub sample: Option<Sample>,
}

impl Cell {
    /// `None` for an absent cell.
    pub(crate) fn new([kind, u, v, fraction, threshold]: [u32; CELL_WORDS]) -> Option<Self> {
        let sample = (kind == 2).then(|| Sample {
            fraction: f32::from_bits(fraction),
            threshold: threshold as u8,
        });
        (kind != 0).then(|| Self {
            u: u.cast_signed(),
            v: v.cast_signed(),
            sample,
        })
    }
}

/// A cell that [`crate::build_marker_cells`] returns: its position, and the indices of its corners, top left, top right, bottom right, bottom left.
#[derive(Clone, Copy, Debug, PartialEq, Eq)]
pub struct MarkerCell {
    pub u: i32,
    pub v: i32,
    pub corners: [usize; 4],
}

impl MarkerCell {
    pub(crate) fn new([u, v, corners @ ..]: [i32; MARKER_CELL_WORDS]) -> Self {
        Self {
            u,
            v,
            corners: corners.map(|index| index as usize),
        }
    }
}

/// A placement of the cells.
#[derive(Clone, Copy, Debug, PartialEq)]
pub struct Hypothesis {
    pub alignment: Alignment,
    pub evidence: Option<f32>,
    /// The number of contributing cells: those with weight above 0 on a marker's square. It is 0 exactly if the evidence is `None`.
    pub contributing_cells: usize,
}

impl Hypothesis {
    fn new([turn, tx, ty, is_number, bits]: [u32; 5], contributing_cells: u32) -> Self {
        Self {
            alignment: Alignment::new([turn, tx, ty]),
            evidence: (is_number == 1).then(|| f32::from_bits(bits)),
            contributing_cells: contributing_cells as usize,
        }
    }
}

#[derive(Clone, Copy, Debug, PartialEq)]
pub struct Marker {
    /// The cell's index in the record.
    pub cell: usize,
    pub id: u32,
    pub point: [i32; 2],
    pub turn: u32,
    pub differing_bits: u32,
    pub code: u64,
    /// Score / bits²: mean log-likelihood per bit.
    pub quotient: f32,
    pub fraction: f32,
    /// Top left, top right, bottom right, bottom left.
    pub rectified: [[f32; 2]; 4],
}

impl Marker {
    pub(crate) fn new(words: [u32; MARKER_WORDS]) -> Self {
        let float = |k: usize| f32::from_bits(words[k]);
        Self {
            cell: words[0] as usize,
            id: words[1],
            point: [words[2], words[3]].map(u32::cast_signed),
            turn: words[4],
            differing_bits: words[5],
            code: u64::from(words[7]) << 32 | u64::from(words[6]),
            quotient: float(8),
            fraction: float(9),
            rectified: [10, 12, 14, 16].map(|k| [float(k), float(k + 1)]),
        }
    }
}

/// A placed shot.
#[derive(Clone, Debug, PartialEq)]
#[non_exhaustive]
pub struct Match {
    pub best: Hypothesis,
    pub runner_up: Option<Hypothesis>,
    pub margin: f32,
    pub placements: usize,
    /// The alignment of the corners of the best placement.
    pub corners: Alignment,
    /// In the order of their cells; no two have the same id.
    pub markers: Vec<Marker>,
}

impl Match {
    /// The number of markers.
    pub(crate) fn count(words: [u32; MATCH_WORDS]) -> usize {
        words[16] as usize
    }

    pub(crate) fn new(w: [u32; MATCH_WORDS], markers: Vec<Marker>) -> Self {
        Self {
            best: Hypothesis::new([w[0], w[1], w[2], w[3], w[4]], w[17]),
            runner_up: (w[5] == 1).then(|| Hypothesis::new([w[6], w[7], w[8], w[9], w[10]], w[18])),
            margin: f32::from_bits(w[11]),
            placements: w[12] as usize,
            corners: Alignment::new([w[13], w[14], w[15]]),
            markers,
        }
    }
}

/// An inner corner of the board, and the index of the detected corner for it.
#[derive(Clone, Copy, Debug, PartialEq)]
pub struct MappedCorner {
    pub id: u32,
    pub index: usize,
    /// The board corner (i, j).
    pub at: [u32; 2],
    pub target: [f32; 2],
}

impl MappedCorner {
    pub(crate) fn new([id, index, i, j, x, y]: [u32; CORNER_WORDS]) -> Self {
        Self {
            id,
            index: index as usize,
            at: [i, j],
            target: [x, y].map(f32::from_bits),
        }
    }
}

/// What is wrong with a link, or with the links of a marker. `expected` are the four corners of its square.
#[derive(Clone, Debug, PartialEq, Eq)]
#[non_exhaustive]
pub enum Violation {
    UnknownMarker {
        marker: u32,
        corner: u32,
    },
    MarkerHasNoFourCorners {
        marker: u32,
        corner: u32,
    },
    CornerNotInNeighborhood {
        marker: u32,
        corner: u32,
        expected: [u32; 4],
    },
    DuplicateCorner {
        marker: u32,
        corner: u32,
        expected: [u32; 4],
    },
    MissingCorners {
        marker: u32,
        expected: [u32; 4],
        missing: Vec<u32>,
    },
    /// A kind that this crate does not know, from a later library: its words.
    Unknown([u32; VIOLATION_WORDS]),
}

impl Violation {
    pub(crate) fn new(words: [u32; VIOLATION_WORDS]) -> Self {
        let [marker, kind, corner, a, b, c, d, count, missing @ ..] = words;
        let expected = [a, b, c, d];
        match kind {
            1 => Self::UnknownMarker { marker, corner },
            2 => Self::MarkerHasNoFourCorners { marker, corner },
            3 => Self::CornerNotInNeighborhood {
                marker,
                corner,
                expected,
            },
            4 => Self::DuplicateCorner {
                marker,
                corner,
                expected,
            },
            5 => Self::MissingCorners {
                marker,
                expected,
                missing: missing.into_iter().take(count as usize).collect(),
            },
            _ => Self::Unknown(words),
        }
    }
}
