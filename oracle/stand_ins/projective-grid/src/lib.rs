//! Stand-in for projective-grid: a point of the integer grid and the affine transforms of it.

/// The path under which upstream looks for the transforms.
pub mod expert {
    pub mod lattice;
}

#[derive(Clone, Copy, Debug, Default, PartialEq, Eq, Hash, PartialOrd, Ord)]
pub struct Coord {
    pub u: i32,
    pub v: i32,
}

impl Coord {
    pub const fn new(u: i32, v: i32) -> Self {
        Self { u, v }
    }
}
