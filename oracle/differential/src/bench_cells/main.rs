//! How long this library and upstream take for the whole cells between corners, and how much memory: `bench_cells`, or
//! `bench_cells ours|theirs|all ROUNDS [CASE]`. This library makes its checks too, and writes the output array; of upstream
//! it is `build_corner_map` and `build_marker_cells`.

use cases::corner_lists::{CornerLists, far, rectangle};
use cases::prng::Prng;
use differential::bench::{Bench, EntryCase, heap};
use std::process::ExitCode;
use theirs::Labeled;

#[global_allocator]
static HEAP: heap::Counting = heap::Counting;

fn main() -> ExitCode {
    let square = CornerLists::of_points(rectangle([0, 0], [17, 17]));
    let mixed = square.clone().shuffled(&mut Prng::new(20));
    let mut backwards = CornerLists::of_points(rectangle([-512, 7], [512, 2]));
    backwards.inliers.reverse();
    let refused = "512 by 2 corners, backwards: this library refuses so many cells";
    let apart = "a cell in each corner of the range, 8,192 apart";
    let inputs = [
        ("17 by 17 corners, in order", square),
        ("17 by 17 corners, mixed", mixed),
        (refused, backwards),
        (apart, far().swap_remove(0)),
    ];
    let cases = inputs.map(|(name, lists)| {
        let labeled = Labeled::new(&lists);
        (name, EntryCase::new(lists, move || labeled.cells().len()))
    });
    Bench::with_memory("bench_cells", "call").run(cases.into())
}
