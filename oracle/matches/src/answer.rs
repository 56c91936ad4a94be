//! The answer to a match, and the words in which both sides give it.

use cases::answer::Answer;
use records::REFUSED;

/// The numbers that a match may return, in the order of the checks; 0 is a match.
#[rustfmt::skip]
pub const NUMBERS: [u32; 21] = [
    0, REFUSED, 1, 2, 3, 4, 5, 6, 7, 8, 22, 9, 10, 11, 12, 23, 13, 14, 15, 16, 17,
];

/// A rotation by 90°, then a translation.
#[derive(Clone, Copy, Debug, PartialEq, Eq)]
pub struct Alignment {
    pub turn: u8,
    pub tx: i32,
    pub ty: i32,
}

/// A placement of the cells. Its evidence is none where no cell contributes.
#[derive(Clone, Copy, Debug)]
pub struct Hypothesis {
    pub alignment: Alignment,
    pub evidence: Option<f32>,
    /// How many cells contribute (document 02, 2.5).
    pub contributing_cells: usize,
}

#[derive(Clone, Debug)]
pub struct Marker {
    pub cell: usize,
    pub id: u32,
    pub point: [i32; 2],
    pub turn: u8,
    pub differing: u32,
    pub code: u64,
    /// Score / bits².
    pub quotient: f32,
    pub fraction: f32,
    /// Top left, top right, bottom right, bottom left.
    pub corners: [[f32; 2]; 4],
}

/// What the search chooses among the placements.
#[derive(Clone, Copy, Debug)]
pub struct Selected {
    pub best: Hypothesis,
    pub runner_up: Option<Hypothesis>,
    pub margin: f32,
    pub placements: usize,
}

#[derive(Clone, Debug)]
pub struct Placed {
    pub best: Hypothesis,
    pub runner_up: Option<Hypothesis>,
    pub margin: f32,
    pub placements: usize,
    pub corners: Alignment,
    pub markers: Vec<Marker>,
}

/// Or the refusal.
pub type Matched = Result<Placed, Answer>;

/// Words of a marker in the output array.
pub const MARKER_WORDS: usize = 18;

/// Words of an answer.
pub const ANSWER_WORDS: usize = 19;

/// Words of an output array with a place for each of 256 cells.
pub const MOST_PLACES: usize = 256 * MARKER_WORDS;

/// The refusal of a margin.
pub fn below_minimum(margin: f32) -> Answer {
    Answer {
        words: vec![margin.to_bits()],
        ..Answer::refused(16)
    }
}

/// The answer in words.
pub fn told(matched: &Matched) -> Answer {
    match matched {
        Err(refused) => refused.clone(),
        Ok(placed) => Answer {
            list: placed.markers.iter().flat_map(Marker::words).collect(),
            ..Answer::of_words(placed.words())
        },
    }
}

impl Alignment {
    pub const fn of_words([turn, tx, ty]: [u32; 3]) -> Self {
        Self {
            turn: turn as u8,
            tx: tx.cast_signed(),
            ty: ty.cast_signed(),
        }
    }

    pub const fn words(self) -> [u32; 3] {
        [
            self.turn as u32,
            self.tx.cast_unsigned(),
            self.ty.cast_unsigned(),
        ]
    }
}

impl Hypothesis {
    /// The alignment, whether there is a number, and its bits. The counts of contributing cells are at the end of the
    /// answer.
    fn words(&self) -> [u32; 5] {
        let [turn, tx, ty] = self.alignment.words();
        let bits = self.evidence.map_or(0, f32::to_bits);
        [turn, tx, ty, self.evidence.is_some().into(), bits]
    }
}

impl Placed {
    pub fn new(selected: Selected, corners: Alignment, markers: Vec<Marker>) -> Self {
        let Selected {
            best,
            runner_up,
            margin,
            placements,
        } = selected;
        Self {
            best,
            runner_up,
            margin,
            placements,
            corners,
            markers,
        }
    }

    /// Of the best and of the runner-up, 0 where there is none.
    fn contributing_cells(&self) -> [usize; 2] {
        let next = self.runner_up.map_or(0, |next| next.contributing_cells);
        [self.best.contributing_cells, next]
    }

    fn words(&self) -> Vec<u32> {
        let next = self.runner_up.as_ref();
        let words = [
            &self.best.words()[..],
            &[next.is_some().into()],
            &next.map_or([0; 5], Hypothesis::words),
            &[self.margin.to_bits(), self.placements as u32],
            &self.corners.words(),
            &[self.markers.len() as u32],
            &self.contributing_cells().map(|count| count as u32),
        ];
        words.concat()
    }
}

impl Marker {
    pub fn words(&self) -> Vec<u32> {
        let [u, v] = self.point.map(i32::cast_unsigned);
        let [low, high] = [self.code as u32, (self.code >> 32) as u32];
        let [quotient, fraction] = [self.quotient, self.fraction].map(f32::to_bits);
        let corners = self.corners.map(|corner| corner.map(f32::to_bits));
        let words = [
            &[self.cell as u32, self.id, u, v, self.turn.into()][..],
            &[self.differing, low, high, quotient, fraction],
            corners.as_flattened(),
        ];
        words.concat()
    }
}
