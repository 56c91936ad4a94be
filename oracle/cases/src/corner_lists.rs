//! Corners and inliers, from which the cells entry point makes marker cells.

pub(crate) mod limits;
mod most;
pub(crate) mod random;
mod shapes;

use crate::prng::Prng;
use std::fmt::{self, Display, Formatter};

pub use limits::{pairs_of_refusals, single_changes};
pub use most::most_of_each;
pub use random::{large_grid, random_grid, random_list};
pub use shapes::{dense, far, shapes, traps};

/// Grid points have both numbers from minus this to this.
pub const FARTHEST: i32 = 4096;

/// Words of a list with a place for each of 256 cells.
pub const PLACES: usize = 256 * WORDS_OF_A_CELL;

/// u, v, then the corners top left, top right, bottom right, bottom left.
pub const WORDS_OF_A_CELL: usize = 6;

/// Words of a corner in `grid`.
pub const WORDS_OF_A_CORNER: usize = 3;

/// The score of a corner of which nothing else is used.
const SCORE: f32 = 0.5;

/// No point is checked of a corner without one.
pub const NO_POINT: [i32; 3] = [0, i32::MIN, i32::MAX];

#[derive(Clone, Debug)]
pub struct CornerLists {
    /// One for each corner: the length of this list is their number.
    pub scores: Vec<f32>,
    /// Three words for each corner: not 0 where it has a grid point, then u, then v. Words past its end count as 0.
    pub grid: Vec<i32>,
    pub inliers: Vec<usize>,
    /// The length of the output array for the cells, in words.
    pub places: usize,
}

impl CornerLists {
    /// A corner at each point, all of them inliers, and a list with places enough.
    pub fn of_points(points: impl IntoIterator<Item = [i32; 2]>) -> Self {
        let mut lists = Self {
            scores: Vec::new(),
            grid: Vec::new(),
            inliers: Vec::new(),
            places: PLACES,
        };
        for [u, v] in points {
            lists.add([1, u, v]);
        }
        lists.inliers = (0..lists.count()).collect();
        lists
    }

    pub fn count(&self) -> usize {
        self.scores.len()
    }

    /// The grid point of a corner.
    pub fn point(&self, corner: usize) -> Option<[i32; 2]> {
        let word = |axis| {
            let place = corner * WORDS_OF_A_CORNER + axis;
            self.grid.get(place).copied().unwrap_or(0)
        };
        (word(0) != 0).then(|| [word(1), word(2)])
    }

    /// A further corner by its three words, which is not yet an inlier.
    pub fn add(&mut self, words: [i32; 3]) {
        self.scores.push(SCORE);
        self.grid.extend(words);
    }

    fn with_inliers(mut self, inliers: Vec<usize>) -> Self {
        self.inliers = inliers;
        self
    }

    pub fn shuffled(mut self, prng: &mut Prng) -> Self {
        prng.shuffle(&mut self.inliers);
        self
    }
}

/// The points of a rectangle, row by row.
pub fn rectangle(
    [left, top]: [i32; 2],
    [columns, rows]: [i32; 2],
) -> impl Iterator<Item = [i32; 2]> + Clone {
    (top..top + rows).flat_map(move |v| (left..left + columns).map(move |u| [u, v]))
}

impl Display for CornerLists {
    /// Long lists only by their counts.
    fn fmt(&self, f: &mut Formatter) -> fmt::Result {
        let [corners, inliers] = [self.count(), self.inliers.len()];
        write!(f, "{corners} corners, {} words, ", self.grid.len())?;
        write!(f, "{inliers} inliers, {} places", self.places)?;
        if corners <= 40 && inliers <= 80 {
            write!(
                f,
                ", {:?}, {:?}, {:?}",
                self.scores, self.grid, self.inliers
            )?;
        }
        Ok(())
    }
}
