//! Floats at which a comparison may tip or a product may leave its range.

use crate::prng::Prng;

pub const LEAST: f32 = f32::from_bits(1);
pub const SUBNORMAL: f32 = 1e-40;
/// The least that is not subnormal.
pub const NORMAL: f32 = f32::MIN_POSITIVE;
pub const THIRD: f32 = 1.0 / 3.0;
pub const BELOW_1: f32 = 1.0f32.next_down();
pub const ABOVE_1: f32 = 1.0f32.next_up();
pub const MIN: f32 = f32::MIN;
pub const MAX: f32 = f32::MAX;
pub const INF: f32 = f32::INFINITY;
pub const NAN: f32 = f32::NAN;
/// A NaN.
pub const SIGNALLING: f32 = f32::from_bits(0x7F80_0001);

/// Square sizes that a board accepts; products with the largest overflow to infinity.
pub const GOOD_CELL_SIZES: [f32; 8] = [1.0, 0.1, 25.4, SUBNORMAL, 3e38, LEAST, NORMAL, MAX];

pub const BAD_CELL_SIZES: [f32; 9] = [
    0.0, -0.0, -1.0, -SUBNORMAL, NAN, -NAN, SIGNALLING, INF, -INF,
];

pub const GOOD_MARKER_SIZES: [f32; 5] = [0.5, 1.0, BELOW_1, NORMAL, LEAST];

pub const BAD_MARKER_SIZES: [f32; 10] = [
    0.0, -0.0, -0.5, ABOVE_1, 2.0, MAX, NAN, SIGNALLING, INF, -INF,
];

/// Pixels for each square, all finite.
pub const PIXELS: [f32; 18] = [
    60.0, 0.0, -0.0, 1.0, -1.0, 0.1, -60.0, THIRD, SUBNORMAL, -SUBNORMAL, LEAST, NORMAL,
    16777215.0, 1e34, 3e38, -3e38, MAX, MIN,
];

pub const NOT_FINITE: [f32; 3] = [INF, -INF, NAN];

/// A finite float of any size and sign.
pub fn random_finite(prng: &mut Prng) -> f32 {
    loop {
        let x = f32::from_bits(prng.draw() as u32);
        if x.is_finite() {
            return x;
        }
    }
}

/// Border thresholds, all finite. Those up to 0 give every sampled cell the weight 1.
pub const BORDER_THRESHOLDS: [f32; 20] = [
    0.5, 0.0, -0.0, LEAST, -LEAST, SUBNORMAL, NORMAL, 1e-30, 0.1, 0.25, THIRD, BELOW_1, 1.0,
    ABOVE_1, 2.0, 1e30, MAX, -0.5, -1e30, MIN,
];

const BELOW_HALF: f32 = 0.5f32.next_down();
const ABOVE_HALF: f32 = 0.5f32.next_up();
const TWO_THIRDS: f32 = 2.0 / 3.0;

/// From 0 to 1, by which minus zero is among them.
pub const FRACTIONS: [f32; 16] = [
    0.0, -0.0, LEAST, SUBNORMAL, NORMAL, 1e-30, 0.1, 0.25, THIRD, BELOW_HALF, 0.5, ABOVE_HALF,
    0.75, TWO_THIRDS, BELOW_1, 1.0,
];

/// A fraction from 0 to 1, both included.
pub fn random_fraction(prng: &mut Prng) -> f32 {
    const STEPS: u64 = 1 << 24;
    prng.below(STEPS + 1) as f32 / STEPS as f32
}

/// The bits of a float, by which floats are compared. All NaNs count as one.
pub const fn float_bits(x: f32) -> u32 {
    if x.is_nan() { f32::NAN } else { x }.to_bits()
}

/// The same of a float that is given by its bits.
pub const fn one_nan(bits: u32) -> u32 {
    float_bits(f32::from_bits(bits))
}
