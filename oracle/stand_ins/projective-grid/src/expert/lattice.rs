//! Transforms of the square lattice. The order of the table is not in the given upstream files; it is chosen so that
//! upstream's `GRID_TRANSFORMS_C4`, which picks 0, 3, 2, 1, comes out as document 01 states it.

use crate::Coord;

/// Sends a point p to matrix × p + translation.
#[derive(Clone, Copy, Debug, PartialEq, Eq)]
pub struct GridTransform {
    matrix: [[i32; 2]; 2],
    translation: [i32; 2],
}

impl GridTransform {
    const fn linear(matrix: [[i32; 2]; 2]) -> Self {
        Self {
            matrix,
            translation: [0, 0],
        }
    }

    pub const fn matrix(&self) -> [[i32; 2]; 2] {
        self.matrix
    }

    pub const fn translation(&self) -> [i32; 2] {
        self.translation
    }

    pub const fn with_translation(mut self, translation: [i32; 2]) -> Self {
        self.translation = translation;
        self
    }

    pub const fn apply(&self, point: Coord) -> Coord {
        let [[a, b], [c, d]] = self.matrix;
        let [tx, ty] = self.translation;
        Coord::new(
            a * point.u + b * point.v + tx,
            c * point.u + d * point.v + ty,
        )
    }
}

/// Four quarter turns, then the four reflections.
pub const D4_TRANSFORMS: [GridTransform; 8] = [
    GridTransform::linear([[1, 0], [0, 1]]),
    GridTransform::linear([[0, -1], [1, 0]]),
    GridTransform::linear([[-1, 0], [0, -1]]),
    GridTransform::linear([[0, 1], [-1, 0]]),
    GridTransform::linear([[-1, 0], [0, 1]]),
    GridTransform::linear([[1, 0], [0, -1]]),
    GridTransform::linear([[0, 1], [1, 0]]),
    GridTransform::linear([[0, -1], [-1, 0]]),
];
