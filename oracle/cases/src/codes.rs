//! Marker codes of each side, their rotations, and codes of which no two are equal up to rotation.

use crate::prng::Prng;
use std::collections::HashSet;
use std::ops::{Range, RangeInclusive};

pub const SIDES: RangeInclusive<u8> = 1..=8;
pub const TURNS: Range<u8> = 0..4;

/// The code of side × side bits with every bit set.
pub fn all_ones(side: u8) -> u64 {
    u64::MAX >> (64 - bit_count(side))
}

/// No bit, every bit, and the two checkers.
pub fn patterns(side: u8) -> [u64; 4] {
    let all = all_ones(side);
    let checker = checker(side);
    [0, all, checker, all ^ checker]
}

/// Each code with one bit set.
pub fn single_bits(side: u8) -> Vec<u64> {
    (0..bit_count(side)).map(|bit| 1 << bit).collect()
}

pub fn random_code(prng: &mut Prng, side: u8) -> u64 {
    prng.draw() & all_ones(side)
}

fn bit_count(side: u8) -> u32 {
    u32::from(side) * u32::from(side)
}

fn checker(side: u8) -> u64 {
    let side = u32::from(side);
    (0..side * side)
        .filter(|bit| (bit / side + bit % side) % 2 == 1)
        .fold(0, |code, bit| code | 1 << bit)
}

/// Bit y × n + x of the rotated code is bit sy × n + sx of the code (document 01).
pub fn turned_code(code: u64, side: u8, turn: u8) -> u64 {
    let n = u32::from(side);
    let mut turned = 0;
    for y in 0..n {
        for x in 0..n {
            let [sx, sy] = match turn {
                0 => [x, y],
                1 => [y, n - 1 - x],
                2 => [n - 1 - x, n - 1 - y],
                _ => [n - 1 - y, x],
            };
            turned |= (code >> (sy * n + sx) & 1) << (y * n + x);
        }
    }
    turned
}

/// Two codes are equal up to rotation if the least of their rotations is the same.
pub fn least_turn(code: u64, side: u8) -> u64 {
    let turned = TURNS.map(|turn| turned_code(code, side, turn));
    turned.min().expect("there are four rotations")
}

/// Below this there are as many codes as any list has, of every side that has so many.
const NUMBERS: u64 = 2048;

/// The codes of a generated board: the first `count` of the numbers below 2,048, in rising order, that are the least of
/// their rotations, and 0 past the last of them. Only sides 1 to 3 have fewer than a board may need: 2, 6 and 140.
pub fn listed_codes(side: u8, count: usize) -> Vec<u64> {
    let least = (0..NUMBERS).filter(|&number| least_turn(number, side) == number);
    let mut codes: Vec<u64> = least.take(count).collect();
    codes.resize(count, 0);
    codes
}

/// How many codes there are of which no two are equal up to rotation; for a side of 4 and more, as many as any list has.
pub fn most_different(side: u8) -> usize {
    [0, 2, 6, 140, usize::MAX][usize::from(side.min(4))]
}

/// Random codes of which no two are equal up to rotation. The side must have so many.
pub fn random_different_codes(prng: &mut Prng, side: u8, count: usize) -> Vec<u64> {
    assert!(count <= most_different(side));
    let mut seen = HashSet::new();
    let mut codes = Vec::with_capacity(count);
    while codes.len() < count {
        let code = random_code(prng, side);
        if seen.insert(least_turn(code, side)) {
            codes.push(code);
        }
    }
    codes
}

#[cfg(test)]
mod tests {
    use super::*;

    /// Every code of a side from 1 to 4, by the least of its rotations.
    #[test]
    fn how_many_are_different() {
        for (side, count) in [(1, 2), (2, 6), (3, 140), (4, 16_456)] {
            let least = (0..=all_ones(side)).map(|code| least_turn(code, side));
            assert_eq!(least.collect::<HashSet<_>>().len(), count);
            assert!(most_different(side) == count || side == 4);
        }
    }

    #[test]
    fn the_first_listed() {
        assert_eq!(listed_codes(0, 2), [0, 0]);
        assert_eq!(listed_codes(1, 4), [0, 1, 0, 0]);
        assert_eq!(listed_codes(2, 7), [0, 1, 3, 6, 7, 15, 0]);
        assert_eq!(listed_codes(3, 8), [0, 1, 2, 3, 5, 6, 7, 10]);
        assert_eq!(listed_codes(3, 141)[138..], [495, 511, 0]);
        // The corner top right is bit 3, and bit 0 when it is rotated.
        assert_eq!(listed_codes(4, 9), [0, 1, 2, 3, 4, 5, 6, 7, 9]);
        for side in 4..=8 {
            let codes = listed_codes(side, 1025);
            assert!(codes.is_sorted_by(|a, b| a < b));
        }
    }

    #[test]
    fn random_ones_are_different() {
        let mut prng = Prng::new(1);
        for (side, count) in [(1, 2), (2, 6), (3, 140), (4, 512), (8, 1024)] {
            let codes = random_different_codes(&mut prng, side, count);
            let least = codes.iter().map(|&code| least_turn(code, side));
            assert_eq!(least.collect::<HashSet<_>>().len(), count);
        }
    }
}
