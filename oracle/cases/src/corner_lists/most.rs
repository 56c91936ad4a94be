//! The most cells, corners and inliers, and one more, with lists of several lengths.

use super::{CornerLists, PLACES, rectangle};

const LONG_LIST: usize = 2_000;

pub fn most_of_each() -> Vec<CornerLists> {
    let mut all = Vec::new();
    most_cells(&mut all);
    most_corners(&mut all);
    most_inliers(&mut all);
    all
}

fn add_with(all: &mut Vec<CornerLists>, lists: &CornerLists, places: &[usize]) {
    all.extend(places.iter().map(|&places| CornerLists {
        places,
        ..lists.clone()
    }));
}

/// 256 cells, then one more, then a score that is not finite.
fn most_cells(all: &mut Vec<CornerLists>) {
    let mut lists = CornerLists::of_points(rectangle([0, 0], [17, 17]));
    lists.add([1, 17, 0]);
    lists.add([1, 17, 1]);
    lists.scores.fill(0.0);
    let lengths = [0, 1, PLACES - 1, PLACES, PLACES + 1, LONG_LIST];
    add_with(all, &lists.without_last(2), &lengths);
    add_with(all, &lists, &[PLACES]);
    lists.inliers.push(17 * 17);
    add_with(all, &lists, &[PLACES]);
    lists.inliers.push(17 * 17 + 1);
    add_with(all, &lists, &[0, PLACES - 1, PLACES, LONG_LIST]);
    lists.add([0, 0, 0]);
    *lists.scores.last_mut().expect("one was added") = f32::NAN;
    add_with(all, &lists, &[PLACES - 1, PLACES]);
}

/// 1,024 corners, the last of which make a cell, then one more.
fn most_corners(all: &mut Vec<CornerLists>) {
    let mut lists = CornerLists::of_points([]);
    for _ in 0..1020 {
        lists.add([0, 0, 0]);
    }
    for [u, v] in rectangle([-4096, 4095], [2, 2]) {
        lists.add([1, u, v]);
    }
    lists.inliers = vec![1023, 1022, 1021, 1020, 1024, 0];
    lists.add([0, 0, 0]);
    lists.scores.fill(0.0);
    for lists in [lists.without_last(1), lists] {
        add_with(all, &lists, &[PLACES - 1, PLACES]);
    }
}

/// 1,024 inliers, the last of which belongs to the cell, then one more.
fn most_inliers(all: &mut Vec<CornerLists>) {
    let points = rectangle([4095, -4096], [2, 2]).chain([[4096, -4095]]);
    let mut lists = CornerLists::of_points(points);
    lists.scores.fill(0.0);
    lists.inliers = [vec![4, 0, 1, 2], vec![9; 1018]].concat();
    add_with(all, &lists, &[PLACES]);
    lists.inliers.push(3);
    add_with(all, &lists, &[PLACES]);
    for further in [4, 0] {
        lists.inliers.push(further);
        add_with(all, &lists, &[PLACES - 1, PLACES]);
    }
}

impl CornerLists {
    /// Without so many corners, which are no inliers.
    fn without_last(&self, count: usize) -> Self {
        let mut lists = self.clone();
        let left = lists.count() - count;
        lists.scores.truncate(left);
        lists.grid.truncate(3 * left);
        lists
    }
}
