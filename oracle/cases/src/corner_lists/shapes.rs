//! Lists of odd shapes: empty, with words missing or too many, with odd first words, with indices beyond the list; with
//! points at both ends of the range, which must not be taken for neighbours; and rectangles without a hole.

use super::random::beyond;
use super::{CornerLists, FARTHEST, WORDS_OF_A_CORNER, rectangle};
use crate::entries::changed;
use crate::prng::Prng;
use std::ops::RangeInclusive;

/// First words of a corner.
const HAS: [i32; 9] = [0, 1, -1, 2, 256, 65_536, 0x4000_0000, i32::MAX, i32::MIN];

pub fn shapes() -> Vec<CornerLists> {
    let mut all = vec![
        CornerLists::of_points([]),
        CornerLists::of_points([]).with_inliers(vec![0]),
        CornerLists::of_points([]).with_inliers(vec![usize::MAX; 4]),
        nine().with_inliers(vec![]),
    ];
    all.extend((0..=nine().grid.len() + 4).map(of_length));
    all.extend(HAS.map(with_first_word));
    all.extend(with_one_missing());
    all.extend(beyond(9).map(with_index));
    all.extend(repeats());
    all
}

fn nine() -> CornerLists {
    CornerLists::of_points(rectangle([-1, -1], [3, 3]))
}

/// The words past the corners must not count, whatever they are.
fn of_length(length: usize) -> CornerLists {
    changed(&nine(), |lists| lists.grid.resize(length, 5000))
}

/// In the middle, where four cells meet, and top left.
fn with_first_word(has: i32) -> CornerLists {
    let corners = [0, 4 * WORDS_OF_A_CORNER];
    changed(&nine(), |lists| {
        for at in corners {
            lists.grid[at] = has;
        }
    })
}

/// Each corner once no inlier.
fn with_one_missing() -> impl Iterator<Item = CornerLists> {
    (0..nine().count()).map(|missing| {
        changed(&nine(), |lists| {
            lists.inliers.retain(|&index| index != missing)
        })
    })
}

/// In place of an inlier, and besides all.
fn with_index(index: usize) -> CornerLists {
    changed(&nine(), |lists| {
        lists.inliers[0] = index;
        lists.inliers.push(index);
    })
}

/// The last inlier at a grid point wins, whichever corner comes last.
fn repeats() -> Vec<CornerLists> {
    let points = rectangle([5, -6], [2, 2]);
    let twice = CornerLists::of_points(points.clone().chain(points));
    [
        vec![0, 1, 2, 3, 4, 5, 6, 7],
        vec![4, 5, 6, 7, 0, 1, 2, 3],
        vec![0, 5, 2, 7, 4, 1, 6, 3],
        vec![0, 4, 0, 1, 5, 1, 2, 6, 2, 3, 7, 3],
        vec![0, 4, 1, 1, 1, 6, 2, 6, 7, 3, 7, 8],
        vec![7, 7, 6, 6, 5, 5, 4, 4],
        vec![0, 1, 2],
        vec![0, 1, 2, 4, 5, 6],
    ]
    .into_iter()
    .map(|inliers| twice.clone().with_inliers(inliers))
    .collect()
}

const ENDS: [i32; 4] = [-FARTHEST, -FARTHEST + 1, FARTHEST - 1, FARTHEST];

/// The right end of a row and the left end of the next would be neighbours if a point were one number, counted row by
/// row; so would the lower end of a column and the upper end of the next.
pub fn traps(prng: &mut Prng) -> Vec<CornerLists> {
    let mut all = Vec::new();
    for v in [-FARTHEST, -1, 0, FARTHEST - 2] {
        let rows = [v, v + 1].map(|v| [[FARTHEST, v], [-FARTHEST, v + 1]]);
        let points = rows.as_flattened();
        all.push(CornerLists::of_points(points.iter().copied()));
        all.push(CornerLists::of_points(points.iter().map(|&[u, v]| [v, u])));
    }
    for _ in 0..150 {
        let near = prng.pick(&[-FARTHEST, -1, FARTHEST - 2]);
        let points = prng.many(10, |prng| [prng.pick(&ENDS), near + prng.below(3) as i32]);
        let turned = points.iter().map(|&[u, v]| [v, u]);
        all.push(CornerLists::of_points(turned));
        all.push(CornerLists::of_points(points));
    }
    all
}

/// Cells in the four corners of the range, and a point in each of two. Few, as upstream walks over everything between, 8,192
/// by 8,192 cells, and reserves memory for as many.
pub fn far() -> Vec<CornerLists> {
    let everywhere = ENDS.into_iter().flat_map(|v| ENDS.map(|u| [u, v]));
    vec![
        CornerLists::of_points(everywhere),
        CornerLists::of_points([[FARTHEST; 2], [-FARTHEST; 2]]),
    ]
}

/// Columns or rows of corners.
const SIZES: RangeInclusive<i32> = 1..=32;

/// A rectangle of each size, at the ends of the range or between, with its inliers in order, backwards or mixed. Those
/// with more than 256 cells are refused.
pub fn dense(prng: &mut Prng) -> Vec<CornerLists> {
    let sizes = SIZES.flat_map(|rows| SIZES.map(move |columns| [columns, rows]));
    sizes.map(|size| rectangle_somewhere(prng, size)).collect()
}

fn rectangle_somewhere(prng: &mut Prng, size: [i32; 2]) -> CornerLists {
    let start = size.map(|length| start(prng, length));
    let mut lists = CornerLists::of_points(rectangle(start, size));
    match prng.below(3) {
        0 => lists.inliers.reverse(),
        1 => lists = lists.shuffled(prng),
        _ => {}
    }
    lists
}

/// Where a run of points starts that stays within the range.
fn start(prng: &mut Prng, length: i32) -> i32 {
    let last = FARTHEST - (length - 1);
    let between = prng.below((FARTHEST + last) as u64) as i32 - FARTHEST;
    prng.pick(&[-FARTHEST, last, -1, 0, -length, between])
}
