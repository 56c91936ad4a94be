//! Lists at their limits and past them, one limit at a time and two at once.

use super::{CornerLists, FARTHEST, NO_POINT, PLACES, rectangle};
use crate::entries::{self, changed};
use crate::floats::{INF, LEAST, MAX, MIN, NAN, SIGNALLING};

type Change = fn(&mut CornerLists);

/// Past every limit of the entry point's checks. Which of two is named shows the order of the checks.
const REFUSALS: [Change; 12] = [
    |lists| grow_corners(lists, 1025),
    |lists| grow_inliers(lists, 1025, 1),
    |lists| move_corner(lists, [FARTHEST + 1, 0]),
    |lists| move_corner(lists, [0, -FARTHEST - 1]),
    |lists| move_corner(lists, [i32::MIN, i32::MAX]),
    |lists| lists.scores[3] = f32::NAN,
    |lists| lists.scores[0] = f32::INFINITY,
    |lists| lists.places = 0,
    |lists| lists.places = PLACES - 1,
    |lists| lists.places = 6,
    |lists| add_rectangle(lists, [30, 10], [258, 2]),
    |lists| add_rectangle(lists, [-30, 10], [20, 20]),
];

/// Special scores; the last five are not finite.
pub const SCORES: [f32; 10] = [0.0, -0.0, LEAST, MAX, MIN, INF, -INF, NAN, -NAN, SIGNALLING];

pub const LOWEST: i32 = i32::MIN;
pub const HIGHEST: i32 = i32::MAX;
const NEXT_LOW: i32 = LOWEST + 1;
const NEXT_HIGH: i32 = HIGHEST - 1;

/// Around the farthest one, and the ends of the range.
pub const COORDINATES: [i32; 12] = [
    4096, 4097, -4096, -4097, 8192, -8192, 65_536, -65_536, HIGHEST, NEXT_HIGH, LOWEST, NEXT_LOW,
];

const LENT: [usize; 10] = [0, 1, 5, 6, 1530, 1535, 1536, 1537, 2000, 3000];

/// Of corners, or of inliers.
const COUNTS: [usize; 5] = [1022, 1023, 1024, 1025, 1030];

/// Each pair of refusals, each of them alone, and none.
pub fn pairs_of_refusals() -> Vec<CornerLists> {
    entries::pairs(&small(), &REFUSALS)
}

/// Good lists with one number changed to one at a limit or past it.
pub fn single_changes() -> Vec<CornerLists> {
    let mut all = Vec::new();
    let mut changed = |change: &dyn Fn(&mut CornerLists)| all.push(changed(&small(), change));
    for corner in 0..small().count() {
        for score in SCORES {
            changed(&|lists| lists.scores[corner] = score);
        }
    }
    for coordinate in COORDINATES {
        for point in [[coordinate, 0], [0, coordinate]] {
            changed(&|lists| move_corner(lists, point));
            changed(&|lists| put_corner(lists, 0, point));
            changed(&|lists| {
                // The corner counts though it is no inlier.
                move_corner(lists, point);
                lists.inliers.clear();
            });
        }
    }
    for places in LENT {
        changed(&|lists| lists.places = places);
        changed(&|lists| {
            lists.places = places;
            lists.inliers.clear();
        });
        changed(&|lists| {
            lists.places = places;
            add_rectangle(lists, [10, 10], [17, 17]);
        });
    }
    for count in COUNTS {
        changed(&|lists| grow_corners(lists, count));
        changed(&|lists| grow_inliers(lists, count, 1));
        changed(&|lists| grow_inliers(lists, count, usize::MAX));
        changed(&|lists| {
            grow_corners(lists, count);
            grow_inliers(lists, count, 1);
        });
    }
    for whole in [[17, 17], [2, 257], [257, 2], [3, 129]] {
        changed(&|lists| alone(lists, whole));
        // 256 cells, and one of `small` besides.
        changed(&|lists| add_rectangle(lists, [10, 10], whole));
    }
    // 255, 257 and 259 cells.
    for whole in [[16, 18], [2, 256], [2, 258], [258, 2], [8, 38]] {
        changed(&|lists| alone(lists, whole));
    }
    all
}

/// One cell, and two corners that belong to none: one without a grid point, one no inlier.
fn small() -> CornerLists {
    let mut lists = CornerLists::of_points(rectangle([0, 0], [2, 2]));
    lists.add(NO_POINT);
    lists.inliers.push(4);
    lists.add([1, 1, 2]);
    lists
}

fn alone(lists: &mut CornerLists, size: [i32; 2]) {
    *lists = CornerLists::of_points(rectangle([-7, -7], size));
}

fn grow_corners(lists: &mut CornerLists, count: usize) {
    while lists.count() < count {
        lists.add(NO_POINT);
    }
}

fn grow_inliers(lists: &mut CornerLists, count: usize, index: usize) {
    let count = count.max(lists.inliers.len());
    lists.inliers.resize(count, index);
}

/// The last corner of `small`, which had a point.
fn move_corner(lists: &mut CornerLists, point: [i32; 2]) {
    put_corner(lists, 1, point);
}

/// With a point or without one.
fn put_corner(lists: &mut CornerLists, has: i32, [u, v]: [i32; 2]) {
    lists.grid[15..18].copy_from_slice(&[has, u, v]);
    lists.inliers.push(5);
}

fn add_rectangle(lists: &mut CornerLists, start: [i32; 2], size: [i32; 2]) {
    for [u, v] in rectangle(start, size) {
        lists.inliers.push(lists.count());
        lists.add([1, u, v]);
    }
}
