//! The examples that document 01 gives for these modules (P1 to P8, P10, P12), given to upstream. They also check the
//! stand-ins against that document, above all the table of rotations by 90°, which is not in the given upstream text.

use cases::answer::Answer;
use cases::link_entry::example;
use theirs::{
    Board, cell_weight, corner_translation, links_by_rules, links_by_rust, null_score, rotate_code,
    turned, unordered,
};

const TURNS: [u8; 4] = [0, 1, 2, 3];

fn board(rows: u8, cols: u8) -> Board {
    Board::new(rows, cols, false, 1.0)
}

fn squares(board: &Board) -> Vec<[u64; 2]> {
    (0..).map_while(|id| board.marker_position(id)).collect()
}

#[test]
fn p1_p2_markers() {
    assert_eq!(squares(&board(2, 2)), [[1, 0], [0, 1]]);
    assert_eq!(squares(&board(3, 3)), [[1, 0], [0, 1], [2, 1], [1, 2]]);
}

#[test]
fn p3_corners() {
    let board = board(4, 5);
    assert_eq!(board.corner_id(1, 1), Some(0));
    assert_eq!(board.corner_id(4, 3), Some(11));
    assert_eq!(board.corner_id(5, 3), None);
    assert_eq!(board.corner_id(0, 1), None);
}

#[test]
fn p4_p5_turned_codes() {
    let turned = |code, side| TURNS.map(|turn| rotate_code(code, side, turn));
    assert_eq!(turned(1, 2), [1, 2, 8, 4]);
    assert_eq!(turned(2, 3), [2, 32, 128, 8]);
}

#[test]
fn p6_corner_translations() {
    let translations = TURNS.map(|turn| corner_translation(turn, [5, 7]));
    assert_eq!(translations, [[5, 7], [5, 8], [6, 8], [6, 7]]);
}

#[test]
fn p7_surrounding_corners() {
    let board = board(4, 5);
    assert_eq!(board.surrounding_corners(3), Some([1, 2, 6, 5]));
    assert_eq!(board.surrounding_corners(2), None);
    assert_eq!(board.surrounding_corners(10), None);
    assert!(board.marker_position(2).is_some());
    assert!(board.marker_position(10).is_none());
}

#[test]
fn p8_links() {
    #[rustfmt::skip]
    let expected = [
        [3, 3, 9, 1, 2, 6, 5, 0, 0, 0, 0, 0],
        [3, 4, 1, 1, 2, 6, 5, 0, 0, 0, 0, 0],
        [3, 5, 0, 1, 2, 6, 5, 3, 2, 6, 5, 0],
    ];
    for (all_four, count) in [(false, 2), (true, 3)] {
        let input = example(all_four);
        let expected = Answer::of_results(&expected[..count]);
        assert_eq!(links_by_rules(&input), expected);
        assert_eq!(links_by_rust(&input), unordered(&expected));
    }
}

#[test]
fn quarter_turns() {
    let turned = TURNS.map(|turn| turned(turn, [3, 8]));
    assert_eq!(turned, [[3, 8], [8, -3], [-3, -8], [-8, 3]]);
}

#[test]
fn p10_null_score() {
    assert_eq!(null_score(4).to_bits(), 0xC131_7218);
}

#[test]
fn p12_weights() {
    assert_eq!(cell_weight(0.5, true, 0.25), 0.5);
    assert_eq!(cell_weight(0.5, true, 0.75), 1.0);
    assert_eq!(cell_weight(0.0, true, 0.25), 1.0);
    assert_eq!(cell_weight(0.0, false, 0.25), 0.0);
}
