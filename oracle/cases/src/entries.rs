//! What the inputs of the entry points share: pairs of refusals, and lengths of the output array.

use crate::boards::BoardArguments;
use std::ops::RangeInclusive;

/// New numbers for one argument of `board`, by which each of the checks 1 to 8 fails.
pub const BOARD_REFUSALS: [fn(&mut BoardArguments); 12] = [
    |board| board.rows = 1,
    |board| board.cols = 0,
    |board| board.cell_size = f32::INFINITY,
    |board| board.cell_size = -0.0,
    |board| board.marker_size_rel = 1.0f32.next_up(),
    |board| board.border_bits = 0,
    |board| board.code_count = 0,
    |board| board.cols = 33,
    |board| board.bits = 9,
    |board| board.code_count = 1025,
    |board| board.code_count = 1,
    |board| board.value = 0x1_0000,
];

type Change<T> = Box<dyn Fn(&mut T)>;

/// Good input with each pair of refusals, each of them alone, and none. Which of two is named shows the order of the checks.
pub fn pairs_of_refusals<T: Clone + 'static>(
    good: &T,
    board_of: fn(&mut T) -> &mut BoardArguments,
    others: &[fn(&mut T)],
) -> Vec<T> {
    let mut changes: Vec<Change<T>> = Vec::new();
    for change in BOARD_REFUSALS {
        changes.push(Box::new(move |input| change(board_of(input))));
    }
    for &change in others {
        changes.push(Box::new(change));
    }
    pairs(good, &changes)
}

/// Good input with each pair of changes, each of them alone, and none.
pub fn pairs<T: Clone>(good: &T, changes: &[impl Fn(&mut T)]) -> Vec<T> {
    let mut all = vec![good.clone()];
    for first in changes {
        let once = changed(good, first);
        all.extend(changes.iter().map(|second| changed(&once, second)));
    }
    all
}

pub fn changed<T: Clone>(good: &T, change: impl Fn(&mut T)) -> T {
    let mut input = good.clone();
    change(&mut input);
    input
}

/// Lengths of an output array around the one that is needed.
pub fn lengths_around(needed: usize) -> RangeInclusive<usize> {
    needed.saturating_sub(2)..=needed + 2
}
