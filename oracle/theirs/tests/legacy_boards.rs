//! Legacy boards, as they follow from upstream: small ones by hand, beside P1 to P12, and what document 02 states of all.

use cases::answer::Answer;
use cases::layout::{marker_squares, sizes};
use cases::link_entry::{LinkInput, example};
use theirs::{Board, TurnedBoard, links_by_rules, links_by_rust, unordered};

fn legacy(rows: u8, cols: u8) -> Board {
    Board::new(rows, cols, true, 1.0)
}

fn squares(board: &Board) -> Vec<[u64; 2]> {
    (0..).map_while(|id| board.marker_position(id)).collect()
}

#[test]
fn markers_of_small_boards() {
    assert_eq!(squares(&legacy(2, 2)), [[0, 0], [1, 1]]);
    #[rustfmt::skip]
    let four_by_five = [
        [0, 0], [2, 0], [4, 0], [1, 1], [3, 1], [0, 2], [2, 2], [4, 2], [1, 3], [3, 3],
    ];
    assert_eq!(squares(&legacy(4, 5)), four_by_five);
    let three_by_three = [[1, 0], [0, 1], [2, 1], [1, 2]];
    assert_eq!(squares(&legacy(3, 3)), three_by_three);
}

#[test]
fn corners_around_markers() {
    let board = legacy(4, 5);
    assert_eq!(board.surrounding_corners(3), Some([0, 1, 5, 4]));
    assert_eq!(board.surrounding_corners(6), Some([5, 6, 10, 9]));
    for rim in [0, 1, 2, 5, 7, 8, 9, 10] {
        assert_eq!(board.surrounding_corners(rim), None);
    }
}

/// Markers by document 02's rule, as many as without the legacy flag; corners as without it; with an odd row count nothing
/// differs.
#[test]
fn every_size() {
    for [rows, cols] in sizes() {
        let [unmarked, marked] = [false, true].map(|mark| Board::new(rows, cols, mark, 0.1));
        let by_rule: Vec<_> = marker_squares(rows.into(), cols.into(), true)
            .map(|square| square.map(u64::from))
            .collect();
        assert_eq!(squares(&marked), by_rule);
        assert_eq!(marked.marker_count(), unmarked.marker_count());
        assert_eq!(marked.marker_count(), by_rule.len() as u64);
        assert_eq!(marked.corner_count(), unmarked.corner_count());
        for id in 0..=marked.corner_count() as u32 {
            assert_eq!(marked.corner_position(id), unmarked.corner_position(id));
            assert_eq!(marked.object_xy(id), unmarked.object_xy(id));
        }
        assert_eq!(squares(&marked) == squares(&unmarked), rows % 2 == 1);
    }
}

/// The board of 2 rows and 3 columns with its markers, and rotated by 90°: the top row becomes the right column, so that
/// markers 0, 1 and 2 come to the squares (1, 0), (1, 2) and (0, 1).
///
/// ```text
/// 0 . 1        . 0
/// . 2 .        2 .
///              . 1
/// ```
#[test]
fn a_board_turned() {
    let ids = TurnedBoard::new(2, 3);
    assert_eq!([0, 1, 2].map(|id| ids.marker(id)), [0, 2, 1]);
    assert_eq!([0, 1, 2].map(|id| ids.marker_back(id)), [0, 2, 1]);
    assert_eq!([0, 1, 2].map(|id| ids.corner(id)), [0, 1, 2]);
    // Of three by three corners the top row becomes the right column.
    let ids = TurnedBoard::new(4, 4);
    assert_eq!([0, 1, 2, 3, 6].map(|id| ids.corner(id)), [2, 5, 8, 1, 0]);
    assert_eq!(
        [2, 5, 8, 1, 0].map(|id| ids.corner_back(id)),
        [0, 1, 2, 3, 6]
    );
    assert_eq!(ids.corner(9), 9);
    assert_eq!(ids.marker(8), 8);
}

/// P8's links on the same board with the legacy flag.
#[test]
fn links() {
    #[rustfmt::skip]
    let expected = [
        [3, 3, 9, 0, 1, 5, 4, 0, 0, 0, 0, 0],
        [3, 4, 1, 0, 1, 5, 4, 0, 0, 0, 0, 0],
        [3, 5, 0, 0, 1, 5, 4, 3, 0, 5, 4, 0],
    ];
    for (all_four, count) in [(false, 2), (true, 3)] {
        check_links(&example(all_four).marked(), &expected[..count]);
    }
    let mut rim = LinkInput::new(example(true).board, &[[2, 3], [10, 3]], true).marked();
    #[rustfmt::skip]
    let expected = [
        [2, 2, 3, 0, 0, 0, 0, 0, 0, 0, 0, 0],
        [10, 1, 3, 0, 0, 0, 0, 0, 0, 0, 0, 0],
    ];
    check_links(&rim, &expected);
    rim.places -= 1;
    assert_eq!(links_by_rust(&rim), Err(Answer::refused(14)));
}

fn check_links(input: &LinkInput, expected: &[[u32; 12]]) {
    let expected = Answer::of_results(expected);
    assert_eq!(links_by_rules(input), expected);
    assert_eq!(links_by_rust(input), unordered(&expected));
}
