//! Inputs at the limits of the corner entry point's checks and past them, one limit at a time and two at once.

use super::{CornerInput, FARTHEST_TRANSLATION, words_needed};
use crate::boards::{BoardArguments, board, changed_boards, with_look_alikes};
use crate::corner_lists::limits::{COORDINATES, HIGHEST, LOWEST, SCORES};
use crate::corner_lists::{FARTHEST, NO_POINT};
use crate::entries::{self, changed, lengths_around};
use crate::prng::Prng;

type Change = fn(&mut CornerInput);

/// Past every limit of the entry point's own checks.
const REFUSALS: [Change; 14] = [
    |input| grow(input, 1025),
    |input| input.lists.grid[1] = FARTHEST + 1,
    |input| input.lists.grid[2] = -FARTHEST - 1,
    |input| input.lists.grid[3..6].copy_from_slice(&[-1, i32::MIN, i32::MAX]),
    |input| input.lists.scores[0] = f32::NAN,
    |input| input.lists.scores[3] = f32::INFINITY,
    |input| input.turn = 4,
    |input| input.turn = 255,
    |input| input.translation[0] = FARTHEST_TRANSLATION + 1,
    |input| input.translation[0] = -FARTHEST_TRANSLATION - 1,
    |input| input.translation[1] = FARTHEST_TRANSLATION + 1,
    |input| input.translation[1] = -FARTHEST_TRANSLATION - 1,
    |input| input.lists.places = words_needed(&input.board).saturating_sub(1),
    |input| input.lists.places = 0,
];

/// Rotations that look like good ones when they are cut.
const LONG_TURNS: [u32; 6] = [256, 257, 259, 65_536, (1 << 31) + 1, u32::MAX];

/// Around the farthest one and around that of a grid point, and the ends of the range.
const TRANSLATIONS: [i32; 12] = [
    0, 4096, 4097, -4097, 8192, -8192, 8193, -8193, 65_536, -65_536, HIGHEST, LOWEST,
];

/// How many corners there are.
const COUNTS: [usize; 5] = [1022, 1023, 1024, 1025, 1030];

/// Each pair of refusals, each of them alone, and none.
pub fn pairs_of_refusals() -> Vec<CornerInput> {
    entries::pairs_of_refusals(&small(), |input| &mut input.board, &REFUSALS)
}

/// Good input with every rotation of a byte and some longer ones, and with translations at their limits and past them.
pub fn alignments() -> Vec<CornerInput> {
    let turns = (0..=255).chain(LONG_TURNS);
    let turned = turns.map(|turn| CornerInput { turn, ..small() });
    let along =
        |axis: usize| TRANSLATIONS.map(|t| changed(&small(), |input| input.translation[axis] = t));
    turned.chain([0, 1].into_iter().flat_map(along)).collect()
}

/// Good input with one number of its lists changed to one at a limit or past it.
pub fn single_changes() -> Vec<CornerInput> {
    let good = small();
    let corners = 0..good.lists.count();
    let mut all: Vec<CornerInput> = corners.flat_map(changed_corner).collect();
    all.extend(changed_lengths(&good));
    // Without grid words no corner has a grid point.
    let mut without_points = changed_lengths(&good);
    without_points
        .iter_mut()
        .for_each(|input| input.lists.grid.clear());
    all.append(&mut without_points);
    all
}

/// With other scores, and with grid points far off, which count or do not.
fn changed_corner(corner: usize) -> Vec<CornerInput> {
    let good = small();
    let scores = SCORES.map(|score| changed(&good, |input| input.lists.scores[corner] = score));
    let mut all = scores.to_vec();
    for coordinate in COORDINATES {
        for has in [1, 0, i32::MIN] {
            all.extend([1, 2].map(|axis| {
                changed(&good, |input| {
                    input.lists.grid[3 * corner] = has;
                    input.lists.grid[3 * corner + axis] = coordinate;
                })
            }));
        }
    }
    all
}

/// With other lengths of each list.
fn changed_lengths(good: &CornerInput) -> Vec<CornerInput> {
    let places = lengths_around(good.lists.places).chain([0, 1, 6]);
    let words = 0..=good.lists.grid.len() + 1;
    let of_places = places.map(|n| changed(good, |input| input.lists.places = n));
    let of_words = words.map(|n| changed(good, |input| input.lists.grid.resize(n, 1)));
    let of_counts = COUNTS.map(|n| changed(good, |input| grow(input, n)));
    of_places.chain(of_words).chain(of_counts).collect()
}

/// The small input on boards that may be refused.
pub fn on_changed_boards(prng: &mut Prng, count: usize) -> Vec<CornerInput> {
    let boards = changed_boards(prng, count).into_iter();
    boards.map(on_board).collect()
}

/// The small input on boards with codes that are equal up to rotation, and now and then past a limit of the entry point's
/// own checks.
pub fn on_look_alikes(prng: &mut Prng) -> CornerInput {
    let mut input = on_board(with_look_alikes(prng));
    if prng.one_in(4) {
        prng.pick(&REFUSALS)(&mut input);
    }
    input
}

fn on_board(board: BoardArguments) -> CornerInput {
    changed(&small(), |input| {
        input.board = board;
        // Boards that are too large must not need an output array.
        input.lists.places = words_needed(&board).min(6000);
    })
}

/// Seven corners on a board of 4 rows and 5 columns: two on one board corner, one beside the board, one without a grid
/// point.
fn small() -> CornerInput {
    let mut input = CornerInput::new(board([4, 5], 25.4), 1, [7, -3]);
    for (corner, score) in [
        ([1, 1], 0.5),
        ([4, 3], 1.0),
        ([2, 2], 0.25),
        ([2, 2], 0.75),
        ([5, 3], 2.0),
    ] {
        input.add_on(corner, score);
    }
    input.add(NO_POINT, 3.0);
    input.add_on([3, 1], -1.0);
    input
}

/// The last of so many corners is on the board.
fn grow(input: &mut CornerInput, count: usize) {
    while input.lists.count() + 1 < count {
        input.add(NO_POINT, 1.0);
    }
    let [u, v] = small().source([4, 1]);
    input.add([1, u, v], 1.0);
}
