//! Random corners around a board, and whole boards of corners.

use super::{CornerInput, words_needed};
use crate::boards::{board, random_board};
use crate::corner_lists::random::HAS;
use crate::corner_lists::{FARTHEST, rectangle};
use crate::floats::random_finite;
use crate::prng::Prng;

const MOST_CORNERS: usize = 1024;

/// Few scores, so that many are equal; both zeros are equal too.
const TIES: [&[f32]; 4] = [
    &[0.5],
    &[0.0, -0.0],
    &[0.0, -0.0, f32::from_bits(1), -f32::from_bits(1)],
    &[f32::MIN, -1.0, 0.5, 1.0, 1.0f32.next_up(), f32::MAX],
];

/// Corners on the board, on its rim and beside it, some of them on one board corner, some without a grid point; lists of
/// grid words that are too short or too long.
pub fn random_input(prng: &mut Prng) -> CornerInput {
    let mut input = random_alignment(prng);
    let board = input.board;
    let most = prng.pick(&[4, 12, 40]);
    let ties = prng.pick(&TIES);
    for _ in 0..prng.below(most) {
        let [i, j] = [board.cols, board.rows].map(|n| prng.below(u64::from(n) + 3) as i32 - 1);
        let [u, v] = in_range(prng, input.source([i, j]));
        let score = random_score(prng, ties);
        input.add([prng.pick(&HAS), u, v], score);
    }
    let length = input.lists.grid.len();
    if prng.one_in(8) {
        input.lists.grid.truncate(prng.place(length + 1));
    }
    if prng.one_in(8) {
        // The words past the corners must not count, whatever they are.
        input.lists.grid.extend([1, 0, 0, 1, 5000, 0, 1]);
    }
    input.lists.places += prng.pick(&[0, 0, 1, 5, 6, 100]);
    if prng.one_in(32) {
        input.lists.places = prng.place(words_needed(&board));
    }
    input
}

/// A board and an alignment; few translations lie so far off that no corner is on the board.
fn random_alignment(prng: &mut Prng) -> CornerInput {
    let turn = prng.below(4) as u32;
    let translation = prng.two(|prng| match prng.below(16) {
        0 => prng.pick(&[-8192, 8192]),
        1 => prng.below(2 * 8192 + 1) as i32 - 8192,
        2 | 3 => prng.pick(&[-4096, 4096]) + prng.below(67) as i32 - 33,
        4..8 => prng.below(8192) as i32 - 4096,
        _ => prng.below(80) as i32 - 40,
    });
    CornerInput::new(random_board(prng), turn, translation)
}

/// A point out of range is moved to its end, seldom left.
fn in_range(prng: &mut Prng, point: [i32; 2]) -> [i32; 2] {
    if prng.one_in(64) {
        return point;
    }
    point.map(|x| x.clamp(-FARTHEST, FARTHEST))
}

fn random_score(prng: &mut Prng, ties: &[f32]) -> f32 {
    if prng.one_in(16) {
        random_finite(prng)
    } else {
        prng.pick(ties)
    }
}

/// Every inner corner of the largest board once, row by row.
pub fn largest_board() -> CornerInput {
    let mut input = CornerInput::new(board([32, 32], 25.4), 1, [3, -2]);
    for corner in rectangle([1, 1], [31, 31]) {
        input.add_on(corner, 0.5);
    }
    input
}

/// Every corner of the largest board, then 1,024 corners, then one more, with lists of several lengths.
pub fn most_corners() -> Vec<CornerInput> {
    let mut input = CornerInput::new(board([32, 32], 0.1), 0, [0, 0]);
    for j in (1..32).rev() {
        for i in 1..32 {
            input.add_on([i, j], 0.0);
        }
    }
    let needed = input.lists.places;
    let mut all = vec![input.clone()];
    for (count, last) in [(MOST_CORNERS, 1.0), (MOST_CORNERS + 1, 2.0)] {
        while input.lists.count() + 1 < count {
            input.add([0; 3], 0.0);
        }
        input.add_on([31, 31], last);
        for places in [needed - 1, needed, needed + 5] {
            input.lists.places = places;
            all.push(input.clone());
        }
    }
    all
}

/// Every inner corner of a board, in any order, and some of them again, 1,024 at most.
pub fn full_board(prng: &mut Prng) -> CornerInput {
    let mut input = random_alignment(prng);
    input.translation = input.translation.map(|t| t.clamp(-4000, 4000));
    let [cols, rows] = [input.board.cols, input.board.rows].map(|n| n as i32);
    let mut corners: Vec<[i32; 2]> = rectangle([1, 1], [cols - 1, rows - 1]).collect();
    for _ in 0..prng.place(corners.len() + 1) {
        corners.push(prng.pick(&corners));
    }
    prng.shuffle(&mut corners);
    let ties = prng.pick(&TIES);
    for &corner in corners.iter().take(MOST_CORNERS) {
        input.add_on(corner, random_score(prng, ties));
    }
    input
}
