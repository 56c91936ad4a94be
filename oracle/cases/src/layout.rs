//! Board sizes, and the places of a board at which the layout is compared: on it, beside it, and far off.

use std::ops::RangeInclusive;

/// Numbers of rows, and of columns, that both sides accept.
pub const SIDES: RangeInclusive<u8> = 2..=32;

/// Rows and columns of every board that both sides accept.
pub fn sizes() -> impl Iterator<Item = [u8; 2]> {
    SIDES.flat_map(|rows| SIDES.map(move |cols| [rows, cols]))
}

/// Numbers that look like small ones when their upper bytes are dropped, and the ends of the range.
const FAR: [RangeInclusive<i32>; 7] = [
    i32::MIN..=i32::MIN + 1,
    -65_536..=-65_535,
    -256..=-255,
    255..=258,
    65_535..=65_538,
    1 << 30..=1 << 30,
    i32::MAX - 1..=i32::MAX,
];

/// An id with one of these added looks like itself when a part of it is dropped.
const SHIFTS: [u32; 3] = [0, 65_536, 1 << 31];

/// Columns and rows of these places, on a board that has so many of them.
pub fn coordinates(rows: u8, cols: u8) -> impl Iterator<Item = [i32; 2]> {
    let along = |size: u8| (-2..=i32::from(size) + 2).chain(FAR.into_iter().flatten());
    along(rows).flat_map(move |j| along(cols).map(move |i| [i, j]))
}

/// Every id below `count`, the first few beyond it, all these shifted far off, and the ends of the ranges.
pub fn ids(count: u32) -> Vec<u32> {
    let shifted = SHIFTS.map(|shift| shift..shift + count + 3);
    let ends = [i32::MAX as u32, u32::MAX - 1, u32::MAX];
    shifted.into_iter().flatten().chain(ends).collect()
}

/// The squares with markers, by id: those whose column and row make an odd sum, row by row. On a legacy board with an
/// even row count, whose top left square is white, they make an even one.
pub fn marker_squares(rows: u32, cols: u32, legacy: bool) -> impl Iterator<Item = [u32; 2]> {
    let squares = (0..rows).flat_map(move |j| (0..cols).map(move |i| [i, j]));
    let parity = if legacy && rows % 2 == 0 { 0 } else { 1 };
    squares.filter(move |[i, j]| (i + j) % 2 == parity)
}
