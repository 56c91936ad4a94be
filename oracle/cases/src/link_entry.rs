//! Boards and links for the link entry point.

mod limits;
mod many;
mod random;

use crate::boards::BoardArguments;
use crate::layout;
use std::fmt::{self, Display, Formatter};

pub use limits::{on_changed_boards, on_look_alikes, pairs_of_refusals, single_changes};
pub use many::{ALL_MARKERS, ANY_CORNER, EQUAL_KEYS, EQUAL_KEYS_OF_ONE_MARKER, ONE_MARKER, Spread};
pub use many::{many_links, most_of_one_link, of_most_links};
pub use random::{example, random_input, whole_board};

/// Marker, kind, reported corner, the expected four, how many are missing, the missing ones.
pub const WORDS_OF_A_VIOLATION: usize = 12;

/// Three places for each link.
pub const WORDS_FOR_A_LINK: usize = 3 * WORDS_OF_A_VIOLATION;

pub const MOST_LINKS: usize = 4096;

#[derive(Clone, Debug)]
pub struct LinkInput {
    pub board: BoardArguments,
    /// Marker and corner of each link. An odd last word is no link.
    pub words: Vec<u32>,
    /// `MustMatchAll4`.
    pub all_four: bool,
    /// The length of the output array for the violations, in words.
    pub places: usize,
}

impl LinkInput {
    /// An output array of just the length that is needed.
    pub fn new(board: BoardArguments, links: &[[u32; 2]], all_four: bool) -> Self {
        Self {
            board,
            words: links.concat(),
            all_four,
            places: WORDS_FOR_A_LINK * links.len(),
        }
    }

    /// The same links on a legacy board.
    pub const fn marked(mut self) -> Self {
        self.board.legacy_pattern = true;
        self
    }

    pub fn links(&self) -> &[[u32; 2]] {
        self.words.as_chunks().0
    }

    pub fn add(&mut self, link: [u32; 2]) {
        self.words.extend(link);
        self.places += WORDS_FOR_A_LINK;
    }
}

/// The squares with markers, by id.
pub fn marker_squares(board: &BoardArguments) -> Vec<[u32; 2]> {
    layout::marker_squares(board.rows, board.cols, board.legacy_pattern).collect()
}

/// The ids of the corners top left, top right, bottom right, bottom left of a square, which is not on the rim.
pub fn four_of_square(board: &BoardArguments, [i, j]: [u32; 2]) -> Option<[u32; 4]> {
    let BoardArguments { rows, cols, .. } = *board;
    let id = |i: u32, j: u32| (j - 1) * (cols - 1) + i - 1;
    let is_off_rim = i > 0 && j > 0 && i + 1 < cols && j + 1 < rows;
    is_off_rim.then(|| [id(i, j), id(i + 1, j), id(i + 1, j + 1), id(i, j + 1)])
}

impl Display for LinkInput {
    /// Long lists only by their counts.
    fn fmt(&self, f: &mut Formatter) -> fmt::Result {
        let mode = if self.all_four { "all four" } else { "subset" };
        let count = self.words.len();
        write!(
            f,
            "{mode}, {count} words, {} places, {:?}",
            self.places, self.board
        )?;
        if count <= 80 {
            write!(f, ", {:?}", self.words)?;
        }
        Ok(())
    }
}
