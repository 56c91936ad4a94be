//! Boards, corners and alignments for the corner entry point.

mod limits;
mod random;

use crate::boards::BoardArguments;
use crate::corner_lists::CornerLists;
use std::fmt::{self, Display, Formatter};

pub use limits::{
    alignments, on_changed_boards, on_look_alikes, pairs_of_refusals, single_changes,
};
pub use random::{full_board, largest_board, most_corners, random_input};

/// Id, index in the input, board corner i and j, the bits of the target's x and y.
pub const WORDS_OF_A_CORNER: usize = 6;

/// Words of a list with a place for each corner of the largest board.
pub const MOST_PLACES: usize = 31 * 31 * WORDS_OF_A_CORNER;

/// Both numbers of a translation lie from minus this to this.
pub const FARTHEST_TRANSLATION: i32 = 8192;

#[derive(Clone, Debug)]
pub struct CornerInput {
    pub board: BoardArguments,
    /// Scores, grid words and the length of the output array; no inliers.
    pub lists: CornerLists,
    pub turn: u32,
    /// That of corners.
    pub translation: [i32; 2],
}

impl CornerInput {
    /// No corners, and an output array of just the length that is needed.
    pub fn new(board: BoardArguments, turn: u32, translation: [i32; 2]) -> Self {
        let lists = CornerLists {
            places: words_needed(&board),
            ..CornerLists::of_points([])
        };
        Self {
            board,
            lists,
            turn,
            translation,
        }
    }

    /// Which makes the checks of a board: the output array is long enough for every board that is accepted.
    pub fn without_corners(board: BoardArguments) -> Self {
        let mut input = Self::new(board, 0, [0, 0]);
        input.lists.places = MOST_PLACES;
        input
    }

    /// A further corner, with the words given.
    pub fn add(&mut self, words: [i32; 3], score: f32) {
        self.lists.add(words);
        *self.lists.scores.last_mut().expect("one was added") = score;
    }

    /// The grid point that the alignment sends to a board corner. The rotation is 0 to 3.
    pub const fn source(&self, [i, j]: [i32; 2]) -> [i32; 2] {
        let [tx, ty] = self.translation;
        let [i, j] = [i - tx, j - ty];
        match self.turn {
            0 => [i, j],
            1 => [-j, i],
            2 => [-i, -j],
            _ => [j, -i],
        }
    }

    /// A further corner, on a board corner.
    pub fn add_on(&mut self, corner: [i32; 2], score: f32) {
        let [u, v] = self.source(corner);
        self.add([1, u, v], score);
    }
}

/// Words of a list with a place for each inner corner. Boards may have any size.
pub const fn words_needed(board: &BoardArguments) -> usize {
    let rows = (board.rows as usize).saturating_sub(1);
    let cols = (board.cols as usize).saturating_sub(1);
    WORDS_OF_A_CORNER.saturating_mul(rows.saturating_mul(cols))
}

impl Display for CornerInput {
    fn fmt(&self, f: &mut Formatter) -> fmt::Result {
        write!(f, "turn {}, {:?}, ", self.turn, self.translation)?;
        write!(f, "{}, {:?}", self.lists, self.board)
    }
}
