//! Grid points and translations.

use crate::prng::Prng;

/// Around 0, around each power of two that could be a limit, and the ends of the range.
pub const TELLING: [i16; 31] = [
    -32_768, -32_767, -8193, -8192, -4097, -4096, -4095, -257, -256, -129, -128, -32, -7, -2, -1,
    0, 1, 2, 5, 7, 31, 32, 127, 128, 255, 256, 4095, 4096, 8192, 32_766, 32_767,
];

/// Every pair of special numbers.
pub fn telling_points() -> impl Iterator<Item = [i16; 2]> {
    TELLING
        .into_iter()
        .flat_map(|u| TELLING.into_iter().map(move |v| [u, v]))
}

/// A point with both numbers from -4096 to 4096.
pub fn random_point(prng: &mut Prng) -> [i16; 2] {
    prng.two(|prng| prng.below(8193) as i16 - 4096)
}
