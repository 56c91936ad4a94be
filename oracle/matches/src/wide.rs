//! Whole numbers of 384 bits, in two's complement: room for any evidence in units of 2⁻²⁹⁸, which stays below 2³²⁰.

use std::ops::{Add, Mul, Neg, Sub};

const WORDS: usize = 6;

/// The lowest word first.
#[derive(Clone, Copy, Debug, PartialEq, Eq)]
pub struct Wide([u64; WORDS]);

impl Wide {
    pub const ZERO: Self = Self([0; WORDS]);

    pub const fn new(number: u64) -> Self {
        let mut words = [0; WORDS];
        words[0] = number;
        Self(words)
    }

    /// A finite f32 as a whole number of 2⁻¹⁴⁹.
    pub fn of_float(x: f32) -> Self {
        assert!(x.is_finite());
        let bits = x.to_bits();
        let [exponent, fraction] = [bits >> 23 & 0xFF, bits & 0x7F_FFFF];
        let size = match exponent {
            0 => Self::new(fraction.into()),
            _ => Self::new((fraction | 0x80_0000).into()).shifted(exponent as usize - 1),
        };
        if bits >> 31 == 1 { -size } else { size }
    }

    /// Times 2 to the power of so many.
    pub fn shifted(self, places: usize) -> Self {
        let mut shifted = [0; WORDS];
        let [words, bits] = [places / 64, places % 64];
        for k in (words..WORDS).rev() {
            shifted[k] = self.0[k - words] << bits;
            if bits > 0 && k > words {
                shifted[k] |= self.0[k - words - 1] >> (64 - bits);
            }
        }
        Self(shifted)
    }

    pub const fn is_negative(self) -> bool {
        self.0[WORDS - 1] >> 63 == 1
    }

    pub fn size(self) -> Self {
        if self.is_negative() { -self } else { self }
    }

    pub fn is_above(self, other: Self) -> bool {
        (other - self).is_negative()
    }

    /// About, for showing. The last bits are lost.
    pub fn about(self) -> f64 {
        let size = self.size();
        let words = size.0.iter().rev();
        let about = words.fold(0.0, |sum, &word| sum * 2f64.powi(64) + word as f64);
        if self.is_negative() { -about } else { about }
    }
}

impl Add for Wide {
    type Output = Self;

    fn add(self, other: Self) -> Self {
        let mut sum = [0; WORDS];
        let mut carry = false;
        for (k, word) in sum.iter_mut().enumerate() {
            let (part, first) = self.0[k].overflowing_add(other.0[k]);
            let (part, second) = part.overflowing_add(carry.into());
            *word = part;
            carry = first || second;
        }
        Self(sum)
    }
}

impl Neg for Wide {
    type Output = Self;

    fn neg(self) -> Self {
        Self(self.0.map(|word| !word)) + Self::new(1)
    }
}

impl Sub for Wide {
    type Output = Self;

    fn sub(self, other: Self) -> Self {
        self + -other
    }
}

impl Mul for Wide {
    type Output = Self;

    /// Of the words beyond the sixth nothing is kept, which changes no product that has room.
    fn mul(self, other: Self) -> Self {
        let mut product = [0; WORDS];
        for i in 0..WORDS {
            let mut carry = 0;
            for j in 0..WORDS - i {
                let part = u128::from(self.0[i]) * u128::from(other.0[j]);
                let part = part + u128::from(product[i + j]) + carry;
                product[i + j] = part as u64;
                carry = part >> 64;
            }
        }
        Self(product)
    }
}

#[cfg(test)]
mod tests {
    use super::Wide;

    fn wide(number: i64) -> Wide {
        let size = Wide::new(number.unsigned_abs());
        if number < 0 { -size } else { size }
    }

    #[test]
    fn small_numbers() {
        let large = 3_000_000_000;
        let numbers = [0, 1, -1, 2, -7, 65_536, -1_000_003, large, -large];
        for a in numbers {
            for b in numbers {
                assert_eq!(wide(a) + wide(b), wide(a + b));
                assert_eq!(wide(a) - wide(b), wide(a - b));
                assert_eq!(wide(a) * wide(b), wide(a * b));
                assert_eq!(wide(a).is_above(wide(b)), a > b);
            }
            assert_eq!(wide(a).size(), wide(a.abs()));
            assert_eq!(wide(a).shifted(20), wide(a * (1 << 20)));
            assert_eq!(wide(a).about(), a as f64);
        }
    }

    #[test]
    fn large_numbers() {
        let power = Wide::new(1).shifted(150);
        assert_eq!(power * power, Wide::new(1).shifted(300));
        assert_eq!(power * -power, -Wide::new(1).shifted(300));
        let three = power + power + power;
        assert_eq!(three * three, Wide::new(9).shifted(300));
        assert_eq!(Wide::new(1).shifted(320).about(), 2f64.powi(320));
    }

    #[test]
    fn floats() {
        assert_eq!(Wide::of_float(f32::from_bits(1)), Wide::new(1));
        assert_eq!(Wide::of_float(-f32::from_bits(3)), -Wide::new(3));
        assert_eq!(Wide::of_float(1.0), Wide::new(1).shifted(149));
        assert_eq!(Wide::of_float(-8.0), -Wide::new(1).shifted(152));
        assert_eq!(Wide::of_float(0.75), Wide::new(3).shifted(147));
        assert_eq!(Wide::of_float(f32::MIN_POSITIVE), Wide::new(1).shifted(23));
        assert_eq!(Wide::of_float(-0.0), Wide::ZERO);
    }
}
