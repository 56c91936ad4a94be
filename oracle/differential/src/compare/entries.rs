//! The corner entry point, the cells entry point, and the checks of a board.

use crate::entry::compare_all;
use crate::subject::{Subject, of_legacy_boards};
use cases::boards::{BASES, BoardArguments, double_changes, many_changes, single_changes};
use cases::corner_entry::{self, CornerInput, alignments, full_board, most_corners};
use cases::corner_lists::{
    self, dense, far, large_grid, most_of_each, random_grid, random_list, shapes, traps,
};
use cases::prng::Prng;

/// The numbers that the corner entry point may return, in the order of its checks.
const CORNERS: [u32; 12] = [0, 1, 2, 3, 4, 5, 6, 7, 8, 22, 18, 14];

const LOOK_ALIKES: usize = 12_000;

pub fn cells() -> Vec<Subject> {
    let mut prng = Prng::new(5);
    let groups = [
        shapes(),
        corner_lists::single_changes(),
        most_of_each(),
        corner_lists::pairs_of_refusals(),
        dense(&mut prng),
        traps(&mut prng),
        far(),
        prng.many(20_000, random_list),
        prng.many(1_500, random_grid),
        prng.many(60, large_grid),
    ];
    let inputs = groups.into_iter().flatten();
    compare_all("marker cells", &[0, 18, 14, 20], inputs)
}

pub fn corners() -> Vec<Subject> {
    [
        corners_of(7, false),
        of_legacy_boards(corners_of(37, true)),
        look_alikes(42, false),
        of_legacy_boards(look_alikes(43, true)),
    ]
    .concat()
}

fn corners_of(seed: u64, legacy: bool) -> Vec<Subject> {
    let mut prng = Prng::new(seed);
    let groups = [
        alignments(),
        corner_entry::single_changes(),
        most_corners(),
        corner_entry::pairs_of_refusals(),
        corner_entry::on_changed_boards(&mut prng, 3_000),
        prng.many(30_000, corner_entry::random_input),
        prng.many(2_000, full_board),
    ];
    let inputs = groups.into_iter().flatten().map(|mut input| {
        input.board.legacy_pattern = legacy;
        input
    });
    compare_all("corners", &CORNERS, inputs)
}

/// Boards with codes that are equal up to rotation (document 02, 2.2).
fn look_alikes(seed: u64, legacy: bool) -> Vec<Subject> {
    let mut prng = Prng::new(seed);
    let inputs = prng.many(LOOK_ALIKES, corner_entry::on_look_alikes);
    let inputs = inputs.into_iter().map(|mut input| {
        input.board.legacy_pattern = legacy;
        input
    });
    compare_all("corners, equal codes", &CORNERS, inputs)
}

/// Which boards are refused, and with which number: the corner entry point without corners, so that no check of its own
/// fails.
pub fn refusals() -> Vec<Subject> {
    let single = BASES.map(single_changes).concat();
    let double = BASES.map(double_changes).concat();
    let many = many_changes(&mut Prng::new(2), 200_000);
    let unmarked = refusals_of([single.clone(), double, many].concat());
    let many = many_changes(&mut Prng::new(32), 60_000);
    let marked = [single, many].concat().into_iter();
    let marked = marked.map(|board| board.with_mark(true)).collect();
    [unmarked, of_legacy_boards(refusals_of(marked))].concat()
}

fn refusals_of(boards: Vec<BoardArguments>) -> Vec<Subject> {
    let inputs = boards.into_iter().map(CornerInput::without_corners);
    compare_all("new board", &[0, 1, 2, 3, 4, 5, 6, 7, 8, 22], inputs)
}
