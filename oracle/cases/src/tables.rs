//! Slopes and floors of likelihood tables, and entries that a table may or may not have.

use crate::floats::{INF, LEAST, MAX, MIN, NAN, NORMAL, SIGNALLING};

const BELOW_M8: f32 = (-8.0f32).next_down();
const ABOVE_M8: f32 = (-8.0f32).next_up();

/// Slope and floor, most of them finite. The tables of some are refused.
pub const SLOPES_AND_FLOORS: [[f32; 2]; 27] = [
    [36.0, -6.0],
    [12.0, -6.0],
    [100.0, -8.0],
    [0.0, -1.0],
    [-0.0, -1.0],
    [-20.0, -8.0],
    [-36.0, -6.0],
    [1e-3, -8.0],
    [1e-40, -8.0],
    [1e30, -8.0],
    [-1e30, -8.0],
    [MAX, -8.0],
    [7.5, -3.25],
    [7.9, -9.0],
    [5.0, MIN],
    [36.0, -0.5],
    [36.0, -0.0],
    [36.0, 0.0],
    // Refused: an entry below -8, above 0, or both.
    [36.0, BELOW_M8],
    [36.0, -100.0],
    [-12.0, MIN],
    [36.0, LEAST],
    [36.0, 1.0],
    [0.0, MAX],
    [36.0, NAN],
    [NAN, 1.0],
    [INF, -INF],
];

/// Lengths of a list that may or may not be that of a table.
pub const LENGTHS: [usize; 7] = [0, 1, 255, 510, 511, 512, 1022];

/// Where an odd entry is put.
pub const PLACES: [usize; 6] = [0, 1, 254, 255, 509, 510];

pub const ODD_ENTRIES: [f32; 19] = [
    -8.0, ABOVE_M8, BELOW_M8, -7.5, -1.0, 0.0, -0.0, LEAST, -LEAST, NORMAL, 1.0, 8.0, MAX, MIN,
    INF, -INF, NAN, -NAN, SIGNALLING,
];
