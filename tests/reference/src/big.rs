//! Whole numbers of any size and sign, as the two machines need them.

use crate::random::Random;
use std::cmp::Ordering;

/// A sign and a magnitude in limbs of 32 bits, the lowest first, without zero limbs at the end. Zero is not negative.
#[derive(Clone, PartialEq, Eq, Debug, Default)]
pub struct Big {
    negative: bool,
    limbs: Vec<u32>,
}

const LIMB_BITS: usize = 32;

impl Big {
    fn new(negative: bool, mut limbs: Vec<u32>) -> Big {
        while limbs.last() == Some(&0) {
            limbs.pop();
        }
        Big { negative: negative && !limbs.is_empty(), limbs }
    }

    pub fn from_i64(value: i64) -> Big {
        let magnitude = value.unsigned_abs();
        Big::new(value < 0, vec![magnitude as u32, (magnitude >> LIMB_BITS) as u32])
    }

    /// A random number of at most this many bits, of either sign.
    pub fn random(random: &mut Random, bits: usize) -> Big {
        let limbs = (0..bits / LIMB_BITS).map(|_| random.word() as u32).collect();
        let high = Big::new(false, limbs).shift_left(bits % LIMB_BITS);
        let low = random.word() & ((1 << (bits % LIMB_BITS)) - 1);
        let magnitude = high.add(&Big::from_i64(low as i64));
        if random.percent(50) {
            magnitude.neg()
        } else {
            magnitude
        }
    }

    pub fn is_zero(&self) -> bool {
        self.limbs.is_empty()
    }

    pub fn neg(&self) -> Big {
        Big::new(!self.negative, self.limbs.clone())
    }

    pub fn abs(&self) -> Big {
        Big::new(false, self.limbs.clone())
    }

    pub fn two_to(bits: usize) -> Big {
        Big::from_i64(1).shift_left(bits)
    }

    pub fn add(&self, other: &Big) -> Big {
        if self.negative == other.negative {
            return Big::new(self.negative, add_limbs(&self.limbs, &other.limbs));
        }
        // The sign of the greater magnitude stays.
        match compare_limbs(&self.limbs, &other.limbs) {
            Ordering::Less => Big::new(other.negative, subtract_limbs(&other.limbs, &self.limbs)),
            _ => Big::new(self.negative, subtract_limbs(&self.limbs, &other.limbs)),
        }
    }

    pub fn sub(&self, other: &Big) -> Big {
        self.add(&other.neg())
    }

    pub fn mul(&self, other: &Big) -> Big {
        let mut limbs = vec![0u32; self.limbs.len() + other.limbs.len()];
        for (i, &x) in self.limbs.iter().enumerate() {
            let mut carry = 0u64;
            for (j, &y) in other.limbs.iter().enumerate() {
                let sum = u64::from(x) * u64::from(y) + u64::from(limbs[i + j]) + carry;
                limbs[i + j] = sum as u32;
                carry = sum >> LIMB_BITS;
            }
            limbs[i + other.limbs.len()] = carry as u32;
        }
        Big::new(self.negative != other.negative, limbs)
    }

    /// Times two to `bits`.
    pub fn shift_left(&self, bits: usize) -> Big {
        let mut limbs = vec![0u32; bits / LIMB_BITS];
        let mut carry = 0u64;
        for &limb in &self.limbs {
            let shifted = (u64::from(limb) << (bits % LIMB_BITS)) | carry;
            limbs.push(shifted as u32);
            carry = shifted >> LIMB_BITS;
        }
        limbs.push(carry as u32);
        Big::new(self.negative, limbs)
    }

    /// Divided by two to `bits`; none where a remainder is left.
    pub fn shift_right_exact(&self, bits: usize) -> Option<Big> {
        let (whole, part) = (bits / LIMB_BITS, bits % LIMB_BITS);
        if self.limbs.iter().take(whole).any(|&limb| limb != 0) {
            return None;
        }
        let left = self.limbs.get(whole..).unwrap_or(&[]);
        if left.first().is_some_and(|&limb| limb & ((1 << part) - 1) != 0) {
            return None;
        }
        let limb = |i: usize| u64::from(left.get(i).copied().unwrap_or(0));
        let limbs = (0..left.len()).map(|i| ((limb(i) | limb(i + 1) << LIMB_BITS) >> part) as u32).collect();
        Some(Big::new(self.negative, limbs))
    }

    pub fn compare(&self, other: &Big) -> Ordering {
        match (self.negative, other.negative) {
            (false, true) => Ordering::Greater,
            (true, false) => Ordering::Less,
            (false, false) => compare_limbs(&self.limbs, &other.limbs),
            (true, true) => compare_limbs(&other.limbs, &self.limbs),
        }
    }
}

fn compare_limbs(one: &[u32], other: &[u32]) -> Ordering {
    one.len().cmp(&other.len()).then_with(|| one.iter().rev().cmp(other.iter().rev()))
}

fn add_limbs(one: &[u32], other: &[u32]) -> Vec<u32> {
    let limb = |limbs: &[u32], i: usize| u64::from(limbs.get(i).copied().unwrap_or(0));
    let mut carry = 0;
    let mut sum = Vec::with_capacity(one.len().max(other.len()) + 1);
    for i in 0..one.len().max(other.len()) + 1 {
        carry += limb(one, i) + limb(other, i);
        sum.push(carry as u32);
        carry >>= LIMB_BITS;
    }
    sum
}

/// The first magnitude is not the smaller one.
fn subtract_limbs(one: &[u32], other: &[u32]) -> Vec<u32> {
    let mut borrow = 0;
    let mut difference = Vec::with_capacity(one.len());
    for (i, &limb) in one.iter().enumerate() {
        let left = i64::from(limb) - i64::from(other.get(i).copied().unwrap_or(0)) - borrow;
        difference.push(left as u32);
        borrow = i64::from(left < 0);
    }
    difference
}

#[cfg(test)]
mod tests {
    use super::*;

    fn big(value: i64) -> Big {
        Big::from_i64(value)
    }

    /// Small numbers agree with the machine's own arithmetic.
    #[test]
    fn small_numbers() {
        let samples = [0, 1, -1, 2, -7, 65_535, -65_536, 4_294_967_295, -4_294_967_296, 99_999_999_999];
        for x in samples {
            assert_eq!([big(x).neg(), big(x).abs()], [big(-x), big(x.abs())]);
            for y in samples {
                assert_eq!(big(x).add(&big(y)), big(x + y), "{x} + {y}");
                assert_eq!(big(x).sub(&big(y)), big(x - y), "{x} - {y}");
                assert_eq!(big(x).compare(&big(y)), x.cmp(&y), "{x} {y}");
                if let Some(product) = x.checked_mul(y) {
                    assert_eq!(big(x).mul(&big(y)), big(product), "{x} * {y}");
                }
            }
        }
    }

    #[test]
    fn shifts() {
        for bits in [0, 1, 31, 32, 33, 64, 100] {
            let shifted = big(-5).shift_left(bits);
            assert_eq!(shifted.shift_right_exact(bits), Some(big(-5)));
            assert_eq!(shifted.shift_right_exact(bits + 1), None);
            assert_eq!(big(0).shift_right_exact(bits), Some(big(0)));
        }
    }

    #[test]
    fn large_numbers_keep_the_laws() {
        let mut random = Random::new(1, 1);
        for bits in [1, 31, 32, 33, 64, 200, 1000] {
            let [x, y, z] = [(); 3].map(|()| Big::random(&mut random, bits));
            assert_eq!(x.add(&y).sub(&y), x);
            assert_eq!(x.mul(&y), y.mul(&x));
            assert_eq!(x.mul(&y.add(&z)), x.mul(&y).add(&x.mul(&z)));
            assert_eq!(x.shift_left(70), x.mul(&Big::two_to(70)));
            assert_eq!(x.compare(&y), y.compare(&x).reverse());
        }
    }
}
