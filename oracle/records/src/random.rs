//! Random shots of many shapes.

use crate::shot::{Cell, Sample, Shot};
use crate::write::write;
use cases::prng::Prng;

/// Bits of special floats: plain ones, both zeros, the ends, the infinities, and NaNs of several patterns.
pub const FLOATS: [u32; 16] = [
    0x3F800000, 0x3D4CCCCD, 0x3F000000, 0x42700000, 0, 0x80000000, 1, 0x7F7FFFFF, 0xFF7FFFFF,
    0x7F800000, 0xFF800000, 0x7FC00000, 0xFFC00000, 0x7F800001, 0xFFFFFFFF, 0x7FC00001,
];

const COORDINATES: [i16; 8] = [0, 1, -1, 4096, -4096, -4097, i16::MAX, i16::MIN];

/// How large a shot is.
#[derive(Clone, Copy, Debug)]
pub struct Shape {
    pub map: u8,
    /// Bits and border.
    pub sides: [u8; 2],
    pub codes: usize,
    pub cells: usize,
    /// Of four cells, so many are sampled.
    pub sampled_of_four: u64,
}

impl Shape {
    pub const fn new(map: u8, sides: [u8; 2], [codes, cells]: [usize; 2], sampled: u64) -> Self {
        Self {
            map,
            sides,
            codes,
            cells,
            sampled_of_four: sampled,
        }
    }

    pub fn shot(self, prng: &mut Prng) -> Shot {
        let [bits, border] = self.sides;
        let mut shot = Shot {
            map: self.map,
            rows: prng.byte(),
            cols: prng.byte(),
            bits,
            border,
            cell_size: float(prng),
            marker_size_rel: float(prng),
            ..Shot::default()
        };
        for (bit, floats) in shot.given_mut() {
            if self.map & bit != 0 {
                floats.fill_with(|| float(prng));
            }
        }
        shot.codes = prng.many(self.codes, Prng::draw);
        let greys = shot.greys();
        shot.cells = prng.many(self.cells, |prng| {
            let is_sampled = prng.below(4) < self.sampled_of_four;
            cell(prng, is_sampled.then_some(greys))
        });
        shot
    }
}

/// The shot with further cells and codes, so that its record has just so many bytes; as it is where there is no room
/// for them. A code has 8 bytes; a cell that is not sampled has 4, and each eighth of them one more in the map. So
/// after some cells the bytes that are left are a number of whole codes.
pub fn filled(prng: &mut Prng, mut shot: Shot, length: usize) -> Shot {
    let left = |shot: &Shot| length.saturating_sub(write(shot).bytes.len());
    while left(&shot) % 8 != 0 {
        shot.cells.push(cell(prng, None));
    }
    shot.codes.extend(prng.many(left(&shot) / 8, Prng::draw));
    shot
}

fn cell(prng: &mut Prng, greys: Option<usize>) -> Cell {
    let sample = greys.map(|greys| Sample {
        fraction: float(prng),
        threshold: prng.byte(),
        grid: prng.many(greys, Prng::byte),
    });
    let [u, v] = prng.two(coordinate);
    Cell { u, v, sample }
}

fn float(prng: &mut Prng) -> u32 {
    if prng.one_in(3) {
        prng.pick(&FLOATS)
    } else {
        prng.draw() as u32
    }
}

fn coordinate(prng: &mut Prng) -> i16 {
    if prng.one_in(3) {
        prng.pick(&COORDINATES)
    } else {
        prng.draw() as i16
    }
}
