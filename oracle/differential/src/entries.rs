//! The entry points of this library, as every Rust program calls them, and the answers that are expected.

use cases::answer::Answer;
use cases::boards::BoardArguments;
use cases::corner_entry::CornerInput;
use cases::corner_lists::CornerLists;
use cases::link_entry::LinkInput;
use charuco::{BoardSpec, words};
use matches::given::Given;
use std::slice::from_raw_parts_mut;

/// A call of this library: it writes `values` and the output array, and returns a number.
pub type Call<'a> = Box<dyn Fn(&mut [u32], &mut [u32]) -> u32 + Send + 'a>;

/// An input of an entry.
pub trait Input {
    /// The length of the output array.
    fn places(&self) -> usize;

    fn ours(&self) -> Call<'_>;

    fn theirs(&self) -> Answer;
}

impl Input for CornerLists {
    fn places(&self) -> usize {
        self.places
    }

    fn ours(&self) -> Call<'_> {
        Box::new(|values, lent| {
            // SAFETY: these are the words of one slice, and each is as good an i32.
            let cells = unsafe { from_raw_parts_mut(lent.as_mut_ptr().cast(), lent.len()) };
            words::build_marker_cells(&self.scores, &self.grid, &self.inliers, cells, values)
        })
    }

    fn theirs(&self) -> Answer {
        theirs::marker_cells(self)
    }
}

impl Input for CornerInput {
    fn places(&self) -> usize {
        self.lists.places
    }

    fn ours(&self) -> Call<'_> {
        let [tx, ty] = self.translation;
        let corners = words::CornerInput {
            scores: &self.lists.scores,
            grid: &self.lists.grid,
            alignment: (self.turn, tx, ty),
        };
        let (spec, codes) = (spec(&self.board), self.board.codes());
        Box::new(move |values, lent| {
            words::map_charuco_corners(&spec, codes, corners, lent, values)
        })
    }

    fn theirs(&self) -> Answer {
        theirs::map_charuco_corners(self)
    }
}

impl Input for LinkInput {
    fn places(&self) -> usize {
        self.places
    }

    fn ours(&self) -> Call<'_> {
        let (spec, codes) = (spec(&self.board), self.board.codes());
        let mode = u32::from(self.all_four);
        Box::new(move |values, lent| {
            words::validate_marker_corner_links(&spec, codes, &self.words, mode, lent, values)
        })
    }

    /// By the rules, which have the order of document 01.
    fn theirs(&self) -> Answer {
        theirs::links_by_rules(self)
    }
}

impl Input for Given {
    fn places(&self) -> usize {
        self.places
    }

    fn ours(&self) -> Call<'_> {
        Box::new(|values, lent| words::match_board(&self.record, lent, values))
    }

    fn theirs(&self) -> Answer {
        matches::told(&matches::match_record(&self.record, self.places))
    }
}

/// The match with scores, on an array of bit patterns, so that every NaN keeps its own.
pub fn match_board_with_scores(
    record: &[u8],
    scores: &mut [u32],
    lent: &mut [u32],
    values: &mut [u32],
) -> u32 {
    // SAFETY: these are the words of one slice, and each is as good an f32.
    let scores = unsafe { from_raw_parts_mut(scores.as_mut_ptr().cast(), scores.len()) };
    words::match_board_with_scores(record, scores, lent, values)
}

const fn spec(board: &BoardArguments) -> BoardSpec {
    BoardSpec {
        rows: board.rows,
        cols: board.cols,
        bits: board.bits,
        border_bits: board.border_bits,
        legacy_pattern: board.legacy_pattern,
        cell_size: board.cell_size,
        marker_size_rel: board.marker_size_rel,
    }
}
