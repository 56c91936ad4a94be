//! Random links: of markers on the board, on its rim and unknown, to their corners and to others.

use super::{LinkInput, four_of_square, marker_squares};
use crate::boards::{BoardArguments, board, random_board};
use crate::prng::Prng;

/// Ids that look like small ones when they are cut or signed.
const FAR_IDS: [u32; 6] = [
    0x10000, 0x7FFFFFFF, 0x80000000, 0x80000003, 0xFFFFFFFE, 0xFFFFFFFF,
];

/// A marker with one of these added is another one that looks like it when a part is dropped.
pub const TWINS: [u32; 4] = [512, 4096, 65_536, 1 << 31];

/// P8 of document 01.
pub fn example(all_four: bool) -> LinkInput {
    LinkInput::new(board([4, 5], 1.0), &[[3, 1], [3, 1], [3, 9]], all_four)
}

/// Of few markers, so that links are repeated.
pub fn random_input(prng: &mut Prng, legacy: bool) -> LinkInput {
    let board = random_board(prng).with_mark(legacy);
    let squares = marker_squares(&board);
    let mut input = LinkInput::new(board, &[], prng.one_in(2));
    let mut few = [0; 4].map(|_: u32| random_marker(prng, squares.len()));
    if prng.one_in(4) {
        few[3] = few[0].wrapping_add(prng.pick(&TWINS));
    }
    let most = prng.pick(&[4, 12, 40]);
    for _ in 0..prng.below(most) {
        let marker = prng.pick(&few);
        let corner = random_corner(prng, &board, squares.get(marker as usize));
        input.add([marker, corner]);
    }
    if prng.one_in(8) {
        input.words.push(prng.pick(&few));
    }
    input.places += prng.pick(&[0, 0, 1, 12, 36]);
    if prng.one_in(32) {
        input.places = prng.place(input.places + 1);
    }
    input
}

fn random_marker(prng: &mut Prng, count: usize) -> u32 {
    match prng.below(16) {
        0 => prng.pick(&FAR_IDS),
        1 => (count as u64 + prng.below(3)) as u32,
        2 => (1 << 31) + prng.below(count as u64) as u32,
        _ => prng.below(count as u64) as u32,
    }
}

/// Mostly one of the four where there are four, else any corner of the board, or none of it.
fn random_corner(prng: &mut Prng, board: &BoardArguments, square: Option<&[u32; 2]>) -> u32 {
    let corners = (board.rows - 1) * (board.cols - 1);
    let four = square.and_then(|&square| four_of_square(board, square));
    match (prng.below(8), four) {
        (0, _) => prng.pick(&FAR_IDS),
        (1, _) | (_, None) => prng.below(u64::from(corners) + 2) as u32,
        (_, Some(four)) => prng.pick(&four),
    }
}

/// The four links of every marker that has four corners, in any order; some are missing, some there twice, some wrong.
pub fn whole_board(prng: &mut Prng, legacy: bool) -> LinkInput {
    let board = random_board(prng).with_mark(legacy);
    let one_in = prng.pick(&[3, 10, 100, 1_000_000]);
    let mut links = Vec::new();
    for (marker, &square) in (0..).zip(&marker_squares(&board)) {
        for corner in four_of_square(&board, square).into_iter().flatten() {
            let is_odd = prng.one_in(one_in);
            let copies = if is_odd { prng.place(3) } else { 1 };
            let is_wrong = prng.one_in(2 * one_in);
            links.extend(vec![[marker, corner + u32::from(is_wrong)]; copies]);
        }
    }
    prng.shuffle(&mut links);
    LinkInput::new(board, &links, prng.one_in(2))
}
