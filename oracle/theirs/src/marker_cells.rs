//! `marker_sampling.rs` and `corner_map.rs`: the whole cells between corners. The checks 18, 14 and 20, of the cells entry
//! point are added, and the rule for them is here.

use calib_targets_aruco::MarkerCell;
use calib_targets_charuco::marker_cells as cells_of_the_rust;
use calib_targets_core::{Coord, LabeledCorner};
use cases::answer::Answer;
use cases::corner_lists::{CornerLists, FARTHEST, PLACES, WORDS_OF_A_CELL};

const MOST_CORNERS: usize = 1024;
const MOST_INLIERS: usize = 1024;
const MOST_CELLS: usize = 256;

/// The answer that is expected. Upstream is not called before the lists have passed check 18: it walks over all cells
/// between the outermost points.
pub fn marker_cells(lists: &CornerLists) -> Answer {
    if !within_limits(lists) {
        return Answer::refused(18);
    }
    if lists.places < PLACES {
        return Answer::refused(14);
    }
    let cells = Labeled::new(lists).cells();
    if cells.len() > MOST_CELLS {
        return Answer::refused(20);
    }
    let cells: Vec<_> = cells.iter().map(six_words).collect();
    Answer::of_results(&cells)
}

/// Check 18 without rotation and translation. The range binds only corners that have a grid point, scores all corners.
pub fn within_limits(lists: &CornerLists) -> bool {
    let in_range = |point: [i32; 2]| point.iter().all(|x| (-FARTHEST..=FARTHEST).contains(x));
    lists.count() <= MOST_CORNERS
        && lists.inliers.len() <= MOST_INLIERS
        && (0..lists.count()).all(|corner| lists.point(corner).is_none_or(in_range))
        && lists.scores.iter().all(|score| score.is_finite())
}

/// The lists as upstream takes them.
pub struct Labeled {
    corners: Vec<LabeledCorner>,
    inliers: Vec<usize>,
}

impl Labeled {
    pub fn new(lists: &CornerLists) -> Self {
        Self {
            corners: labeled_corners(lists),
            inliers: lists.inliers.clone(),
        }
    }

    pub fn cells(&self) -> Vec<MarkerCell> {
        cells_of_the_rust(&self.corners, &self.inliers)
    }
}

/// Upstream knows corners by their positions in a picture; here the x of a position is the index of the corner.
pub fn labeled_corners(lists: &CornerLists) -> Vec<LabeledCorner> {
    let labeled = (0..lists.count()).map(|corner| {
        let mut labeled = LabeledCorner::new(Default::default(), lists.scores[corner]);
        labeled.position.x = corner as f32;
        labeled.grid = lists.point(corner).map(|[u, v]| Coord::new(u, v));
        labeled
    });
    labeled.collect()
}

fn six_words(cell: &MarkerCell) -> [u32; WORDS_OF_A_CELL] {
    let [top_left, top_right, bottom_right, bottom_left] =
        cell.corners_img.map(|position| position.x as u32);
    let [u, v] = [cell.gc.u, cell.gc.v].map(i32::cast_unsigned);
    [u, v, top_left, top_right, bottom_right, bottom_left]
}
