//! Random lists: small ones of every kind, and larger grids with holes.

use super::{CornerLists, PLACES, rectangle};
use crate::prng::Prng;

/// What the first word of a corner may be: with a grid point, unless it is 0.
pub const HAS: [i32; 8] = [1, 1, 1, 1, -1, 2, i32::MIN, 0];

/// Points of a small range, so that cells occur and points are repeated; inliers in any order, some repeated, some
/// beyond the list.
pub fn random_list(prng: &mut Prng) -> CornerLists {
    let [columns, rows] = [1 + prng.below(5), 1 + prng.below(5)];
    let [left, top] = prng.two(|prng| prng.pick(&[-4096, -2, 0, 1, 4092]));
    let mut lists = CornerLists::of_points([]);
    for _ in 0..prng.below(columns * rows * 2 + 2) {
        let u = left + prng.below(columns) as i32;
        let v = top + prng.below(rows) as i32;
        lists.add([prng.pick(&HAS), u, v]);
    }
    let length = lists.count();
    if length > 0 {
        let inliers = prng.place(2 * length + 1);
        lists.inliers = prng.many(inliers, |prng| index(prng, length));
    }
    if prng.one_in(8) {
        lists.grid.truncate(prng.place(3 * length + 1));
    }
    if prng.one_in(8) {
        lists.grid.extend([1, 0, 0, 1, 5000, 0, 1]);
    }
    lists.places = prng.pick(&[PLACES, PLACES, PLACES + 1, 2000]);
    lists
}

fn index(prng: &mut Prng, length: usize) -> usize {
    if prng.one_in(12) {
        return prng.pick(&beyond(length));
    }
    prng.place(length)
}

/// Indices beyond a list, some of which look like good ones when their upper part is dropped.
pub fn beyond(length: usize) -> [usize; 8] {
    let last = length - length.min(1);
    let [p16, p32, p63] = [16, 32, 63].map(|power| 1 << power);
    [
        length,
        length + 1,
        1024,
        p16,
        p32,
        p63,
        p32 + last,
        usize::MAX,
    ]
}

/// Grids of up to 17 by 17 corners, of which some are missing, some not inliers, and some there twice.
pub fn random_grid(prng: &mut Prng) -> CornerLists {
    let size = prng.two(|prng| 2 + prng.below(18) as i32);
    let start = prng.two(|prng| prng.pick(&[-4096, -9, 0, 4096 - 18]));
    let one_missing_in = prng.pick(&[2, 4, 10, 40, 1000]);
    let mut points: Vec<_> = rectangle(start, size)
        .filter(|_| prng.below(one_missing_in) != 0)
        .collect();
    if !points.is_empty() {
        for _ in 0..prng.place(points.len() + 1) {
            points.push(prng.pick(&points));
        }
    }
    let mut lists = CornerLists::of_points(points);
    let no_inlier_in = prng.pick(&[3, 10, 1000]);
    lists.inliers.retain(|_| prng.below(no_inlier_in) != 0);
    if prng.one_in(4) {
        return lists;
    }
    lists.shuffled(prng)
}

/// As many corners as are allowed, or nearly, of which few enough make whole cells.
pub fn large_grid(prng: &mut Prng) -> CornerLists {
    let size = prng.two(|prng| 42 + prng.below(6) as i32);
    let start = prng.two(|prng| prng.pick(&[-4096, -20, 4096 - 47]));
    let half = rectangle(start, size).filter(|_| prng.below(2) == 0);
    let points: Vec<[i32; 2]> = half.take(1024).collect();
    CornerLists::of_points(points).shuffled(prng)
}
