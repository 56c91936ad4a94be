//! What a match shows of the least weight (document 02, 2.8): which wrong programs it excludes, and which cases come up in it.

mod cases;
mod wrong;

use crate::answer::told;
use crate::given::INVALID;
use crate::questions::match_shot;
use crate::weights::Uncut;
use ::cases::answer::Answer;
use records::{Shot, settings};

pub use self::cases::CASES;
pub use wrong::WRONG;

/// A shot with a least weight that comes to the search, and its answer, in an output array that is long enough.
struct Cut<'a> {
    shot: &'a Shot,
    cells: Vec<Uncut>,
    answer: &'a Answer,
    /// With a least weight of 0.
    uncut: &'a Answer,
}

/// Two checks that fail, of which one is 9 by the least weight alone: the one whose number is returned first.
pub const ORDERS: [[u32; 2]; 18] = [
    [1, 9],
    [2, 9],
    [3, 9],
    [4, 9],
    [5, 9],
    [6, 9],
    [7, 9],
    [8, 9],
    [22, 9],
    [9, 10],
    [9, 11],
    [9, 12],
    [9, 23],
    [9, 13],
    [9, 14],
    [9, 15],
    [9, 16],
    [9, 17],
];

/// In how many answers each of them comes up, by their places.
#[derive(Clone, Debug)]
pub struct Shown {
    pub wrong: [usize; WRONG.len()],
    pub cases: [usize; CASES.len()],
    /// Least weights that check 9 refuses, alone.
    pub invalid: [usize; INVALID.len()],
    pub orders: [usize; ORDERS.len()],
}

impl Default for Shown {
    fn default() -> Self {
        Self {
            wrong: [0; WRONG.len()],
            cases: [0; CASES.len()],
            invalid: [0; INVALID.len()],
            orders: [0; ORDERS.len()],
        }
    }
}

impl Shown {
    /// The answer to a match of the shot with an output array of so many words. Without a least weight it shows nothing.
    pub fn add(&mut self, shot: &Shot, places: usize, answer: &Answer) {
        if shot.map & settings::LEAST_WEIGHT == 0 {
            return;
        }
        let without = Shot {
            least_weight: 0,
            ..shot.clone()
        };
        let uncut = told(&match_shot(&without, places));
        let is_valid = (0.0..=1.0).contains(&f32::from_bits(shot.least_weight));
        if !is_valid {
            self.add_invalid(shot.least_weight, [answer.number, uncut.number]);
        } else if [0, 15, 16, 17].contains(&answer.number) {
            self.add_cut(&Cut {
                shot,
                cells: Uncut::all(shot),
                answer,
                uncut: &uncut,
            });
        }
    }

    fn add_cut(&mut self, cut: &Cut) {
        for (count, case) in self.cases.iter_mut().zip(&CASES) {
            *count += usize::from((case.is_so)(cut));
        }
        for (count, wrong) in self.wrong.iter_mut().zip(&WRONG) {
            *count += usize::from(wrong.is_shown_by(cut));
        }
    }

    /// The numbers with the least weight and with one of 0.
    fn add_invalid(&mut self, least_weight: u32, [number, without]: [u32; 2]) {
        let order = if number == 9 {
            [9, without]
        } else {
            [number, 9]
        };
        for (count, shown) in self.orders.iter_mut().zip(ORDERS) {
            *count += usize::from(order == shown);
        }
        if number == 9 && without != 9 {
            for (count, invalid) in self.invalid.iter_mut().zip(INVALID) {
                *count += usize::from(invalid.to_bits() == least_weight);
            }
        }
    }
}
