//! `corner_mapping.rs`: corners of a chessboard made corners of the board. Rotation and translation in check 18 and check 14
//! are added, and the rule for them is here.

use crate::marker_cells::{labeled_corners, within_limits};
use crate::refusals::accepted_board;
use calib_targets_charuco::{CharucoBoard, charuco_corners};
use calib_targets_core::{
    Coord, GRID_TRANSFORMS_C4, GridAlignment, LabeledCorner, TargetDetection, TargetKind,
};
use cases::answer::Answer;
use cases::corner_entry::{CornerInput, FARTHEST_TRANSLATION, WORDS_OF_A_CORNER, words_needed};

/// The answer that is expected.
pub fn map_charuco_corners(input: &CornerInput) -> Answer {
    let mapped = match MappedOnBoard::of_input(input) {
        Ok(mapped) => mapped,
        Err(refused) => return refused,
    };
    if input.lists.places < words_needed(&input.board) {
        return Answer::refused(14);
    }
    let corners: Vec<_> = mapped.corners().iter().map(six_words).collect();
    Answer::of_results(&corners)
}

/// Rotation and translation of check 18.
fn is_in_range(input: &CornerInput) -> bool {
    let range = -FARTHEST_TRANSLATION..=FARTHEST_TRANSLATION;
    input.turn < 4 && input.translation.iter().all(|t| range.contains(t))
}

/// An input as upstream takes it.
pub struct MappedOnBoard {
    board: CharucoBoard,
    chessboard: TargetDetection,
    alignment: GridAlignment,
}

impl MappedOnBoard {
    /// Or the refusal, by a check of the board or by 18.
    pub fn of_input(input: &CornerInput) -> Result<Self, Answer> {
        let board = accepted_board(&input.board, input.board.codes())?;
        if !within_limits(&input.lists) || !is_in_range(input) {
            return Err(Answer::refused(18));
        }
        let turn = GRID_TRANSFORMS_C4[input.turn as usize];
        let corners = labeled_corners(&input.lists);
        Ok(Self {
            board,
            chessboard: TargetDetection::new(TargetKind::Chessboard, corners),
            alignment: turn.with_translation(input.translation),
        })
    }

    pub fn corners(&self) -> Vec<LabeledCorner> {
        charuco_corners(&self.board, &self.chessboard, self.alignment)
    }
}

/// Upstream does not give the index; the x of a position is the index.
fn six_words(corner: &LabeledCorner) -> [u32; WORDS_OF_A_CORNER] {
    let id = corner.id.expect("a mapped corner has an id");
    let Coord { u, v } = corner.grid.expect("a mapped corner has a board corner");
    let target = corner.target_position.expect("a mapped corner has one");
    [
        id,
        corner.position.x as u32,
        u.cast_unsigned(),
        v.cast_unsigned(),
        target.x.to_bits(),
        target.y.to_bits(),
    ]
}
