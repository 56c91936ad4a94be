//! The violations on a legacy board with an even row count, as upstream finds them on the board rotated by 90°.

use super::found_by_rust;
use crate::turned_board::TurnedBoard;
use calib_targets_charuco::{LinkViolation, LinkViolationKind};
use cases::boards::BoardArguments;
use cases::link_entry::LinkInput;

/// Of an input that passes the checks.
pub fn violations(input: &LinkInput) -> Vec<LinkViolation> {
    let BoardArguments { rows, cols, .. } = input.board;
    let ids = TurnedBoard::new(rows as u8, cols as u8);
    let turned = LinkInput {
        board: BoardArguments {
            rows: cols,
            cols: rows,
            legacy_pattern: false,
            ..input.board
        },
        words: input
            .links()
            .iter()
            .flat_map(|&[marker, corner]| [ids.marker(marker), ids.corner(corner)])
            .collect(),
        ..*input
    };
    let mut violations = found_by_rust(&turned);
    for violation in &mut violations {
        carry_back(&ids, violation);
    }
    violations
}

fn carry_back(ids: &TurnedBoard, violation: &mut LinkViolation) {
    let corner = |id: u32| ids.corner_back(id);
    violation.marker_id = ids.marker_back(violation.marker_id);
    violation.reported_corner_id = violation.reported_corner_id.map(corner);
    // What is top right on the rotated board was top left.
    violation.expected =
        violation
            .expected
            .map(|[top_left, top_right, bottom_right, bottom_left]| {
                [top_right, bottom_right, bottom_left, top_left].map(corner)
            });
    if let LinkViolationKind::MissingCorners { missing } = &mut violation.kind {
        missing.iter_mut().for_each(|id| *id = corner(*id));
    }
}
