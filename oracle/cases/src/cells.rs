//! Sampled cells: grey levels and a threshold.

use crate::prng::Prng;
use std::ops::RangeInclusive;

pub const BORDERS: RangeInclusive<u8> = 1..=4;

/// Both ends, next to them, and between.
pub const THRESHOLDS: [u8; 7] = [0, 1, 100, 127, 128, 254, 255];

/// How far from the threshold a grey lies where bits are in doubt.
const NEAR: u64 = 40;

#[derive(Clone, Debug)]
pub struct Cell {
    pub bits: u8,
    pub border: u8,
    pub threshold: u8,
    /// The grey levels of the bits and of the border around them, row by row.
    pub grid: Vec<u8>,
}

/// The grey in a column and a row, for a threshold.
type Pattern = fn(&mut Prng, u8, usize, usize) -> u8;

pub const PATTERNS: [Pattern; 11] = [
    |_, _, _, _| 0,
    |_, _, _, _| 255,
    |_, threshold, _, _| threshold,
    |_, threshold, _, _| threshold.saturating_sub(1),
    |_, threshold, _, _| threshold.saturating_add(1),
    |_, _, column, row| checker(column, row, 0, 255),
    |_, threshold, column, row| {
        let [below, above] = [threshold.saturating_sub(1), threshold.saturating_add(1)];
        checker(column, row, below, above)
    },
    |_, _, column, _| 16 * column as u8,
    |_, _, _, row| 16 * row as u8,
    |prng, _, _, _| any_grey(prng),
    near,
];

impl Cell {
    pub const fn new([bits, border]: [u8; 2], threshold: u8, grid: Vec<u8>) -> Self {
        Self {
            bits,
            border,
            threshold,
            grid,
        }
    }

    /// Bits and borders along one side.
    pub fn side([bits, border]: [u8; 2]) -> usize {
        usize::from(bits) + 2 * usize::from(border)
    }

    pub fn of_pattern(prng: &mut Prng, size: [u8; 2], threshold: u8, pattern: Pattern) -> Self {
        Self::painted(size, threshold, |column, row| {
            pattern(prng, threshold, column, row)
        })
    }

    /// Threshold less grey, bit by bit.
    pub fn differences(&self) -> impl Iterator<Item = i32> {
        let [bits, border] = [self.bits, self.border].map(usize::from);
        let rows = self.grid.chunks(bits + 2 * border).skip(border).take(bits);
        let greys = rows.flat_map(move |row| &row[border..][..bits]);
        greys.map(|&grey| i32::from(self.threshold) - i32::from(grey))
    }

    /// Any threshold, and grey levels that are random, half of the time near the threshold.
    pub fn random(prng: &mut Prng, size: [u8; 2]) -> Self {
        let threshold = any_grey(prng);
        let pattern = prng.pick(&PATTERNS[PATTERNS.len() - 2..]);
        Self::of_pattern(prng, size, threshold, pattern)
    }

    /// Shows a code, black where a bit is set, in grey levels on both sides of the threshold; one bit in eight is in doubt.
    pub fn showing(prng: &mut Prng, [bits, border]: [u8; 2], code: u64) -> Self {
        let threshold = 60 + prng.below(140) as u8;
        Self::painted([bits, border], threshold, |column, row| {
            if prng.one_in(8) {
                return near(prng, threshold, column, row);
            }
            if is_black([bits, border], code, column, row) {
                prng.below(u64::from(threshold)) as u8
            } else {
                255 - prng.below(256 - u64::from(threshold)) as u8
            }
        })
    }

    /// The same in black and white, without doubt.
    pub fn of_code(size: [u8; 2], threshold: u8, code: u64) -> Self {
        Self::painted(size, threshold, |column, row| {
            if is_black(size, code, column, row) {
                0
            } else {
                255
            }
        })
    }

    fn painted(size: [u8; 2], threshold: u8, mut grey: impl FnMut(usize, usize) -> u8) -> Self {
        let side = Self::side(size);
        let grid = (0..side * side).map(|place| grey(place % side, place / side));
        Self::new(size, threshold, grid.collect())
    }
}

/// The border is black, and so is each bit that is set.
fn is_black([bits, border]: [u8; 2], code: u64, column: usize, row: usize) -> bool {
    let inner = usize::from(border)..usize::from(border) + usize::from(bits);
    let is_bit = inner.contains(&column) && inner.contains(&row);
    !is_bit || {
        let bit = (row - inner.start) * usize::from(bits) + column - inner.start;
        code >> bit & 1 == 1
    }
}

fn checker(column: usize, row: usize, even: u8, odd: u8) -> u8 {
    [even, odd][(column + row) % 2]
}

fn any_grey(prng: &mut Prng) -> u8 {
    prng.below(256) as u8
}

fn near(prng: &mut Prng, threshold: u8, _column: usize, _row: usize) -> u8 {
    let grey = u64::from(threshold) + prng.below(2 * NEAR + 1);
    grey.saturating_sub(NEAR).min(255) as u8
}
