//! The entry points, given to upstream: that indices come back through its positions, the order of cells and of their
//! corners, which corner wins, and the order of the checks.

use cases::answer::Answer;
use cases::boards::board;
use cases::corner_entry::CornerInput;
use cases::corner_lists::{CornerLists, PLACES, rectangle};
use cases::link_entry;
use theirs::{links_by_rules, map_charuco_corners, marker_cells};

fn input() -> CornerInput {
    CornerInput::new(board([4, 5], 2.0), 3, [-1, 6])
}

#[test]
fn corners_by_rising_id() {
    let mut input = input();
    for corner in [[4, 3], [0, 1], [2, 1], [5, 3], [1, 1]] {
        input.add_on(corner, 0.5);
    }
    input.add([0, 0, 0], 9.0);
    let [two, four, six, eight] = [2.0f32, 4.0, 6.0, 8.0].map(f32::to_bits);
    #[rustfmt::skip]
    let expected = [
        [0, 4, 1, 1, two, two],
        [1, 2, 2, 1, four, two],
        [11, 0, 4, 3, eight, six],
    ];
    assert_eq!(map_charuco_corners(&input), Answer::of_results(&expected));
}

#[test]
fn the_greatest_score_and_the_earlier_on_a_tie() {
    let index = |scores: &[f32]| {
        let mut input = input();
        for &score in scores {
            input.add_on([1, 1], score);
        }
        map_charuco_corners(&input).list[1]
    };
    assert_eq!(index(&[0.5, 0.75, 0.75, 0.25]), 1);
    assert_eq!(index(&[0.0, -0.0]), 0);
    assert_eq!(index(&[-0.0, 0.0]), 0);
    assert_eq!(index(&[f32::MIN, -1.0, f32::MIN]), 1);
}

#[test]
fn questions_in_their_order() {
    let mut input = input();
    input.lists.places -= 1;
    assert_eq!(map_charuco_corners(&input), Answer::refused(14));
    input.turn = 4;
    assert_eq!(map_charuco_corners(&input), Answer::refused(18));
    input.board.rows = 1;
    assert_eq!(map_charuco_corners(&input), Answer::refused(1));
    let mut links = link_entry::example(true);
    links.places -= 1;
    assert_eq!(links_by_rules(&links), Answer::refused(14));
    links.words.resize(2 * 4097, 0);
    assert_eq!(links_by_rules(&links), Answer::refused(19));
    links.board.cell_size = 0.0;
    assert_eq!(links_by_rules(&links), Answer::refused(2));
}

#[test]
fn cells_row_by_row() {
    let lists = CornerLists::of_points(rectangle([5, 7], [3, 3]));
    #[rustfmt::skip]
    let expected = [
        [5, 7, 0, 1, 4, 3],
        [6, 7, 1, 2, 5, 4],
        [5, 8, 3, 4, 7, 6],
        [6, 8, 4, 5, 8, 7],
    ];
    assert_eq!(marker_cells(&lists), Answer::of_results(&expected));
}

#[test]
fn the_last_inlier_wins() {
    let square = [[0, 0], [1, 0], [1, 1], [0, 1], [1, 1], [1, 1]];
    let mut lists = CornerLists::of_points(square);
    assert_eq!(marker_cells(&lists).list, [0, 0, 0, 1, 5, 3]);
    lists.inliers = vec![0, 5, 4, 1, 2, 3, 6];
    assert_eq!(marker_cells(&lists).list, [0, 0, 0, 1, 2, 3]);
}

#[test]
fn questions_of_cells_in_their_order() {
    let mut lists = CornerLists::of_points(rectangle([0, 0], [18, 17]));
    assert_eq!(marker_cells(&lists), Answer::refused(20));
    lists.places = PLACES - 1;
    assert_eq!(marker_cells(&lists), Answer::refused(14));
    lists.scores[0] = f32::NAN;
    assert_eq!(marker_cells(&lists), Answer::refused(18));
    let lists = CornerLists::of_points(rectangle([0, 0], [17, 17]));
    let answer = marker_cells(&lists);
    assert_eq!((answer.number, answer.words), (0, vec![256]));
}
