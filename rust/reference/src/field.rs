//! The prime field with `P` elements.
//!
//! > p = 2147483647. An element is a whole number 0 to p − 1; sums and products are taken
//! > modulo p.
//!
//! `P` is a const parameter, so that the leak test runs the very same code over a small prime.

use std::iter::Sum;
use std::ops::{Add, Mul, Sub};

use crate::refusal::{require, Refusal};

/// The modulus of document 01, the Mersenne prime 2^31 − 1.
pub const MODULUS: u32 = 2_147_483_647;

/// An element of the field with `P` elements; always below `P`.
#[derive(Clone, Copy, Debug, PartialEq, Eq)]
pub struct Element<const P: u32>(u32);

impl<const P: u32> Element<P> {
    /// The neutral element of addition.
    pub const ZERO: Self = Self(0);

    /// The neutral element of multiplication.
    pub const ONE: Self = Self(1 % P);

    /// The element congruent to `number`.
    pub const fn new(number: u64) -> Self {
        Self((number % P as u64) as u32)
    }

    /// The whole number 0 to `P` − 1 that names this element.
    pub const fn value(self) -> u32 {
        self.0
    }

    /// `self` to the power `exponent`, by repeated squaring.
    pub fn pow(self, mut exponent: u32) -> Self {
        let mut base = self;
        let mut power = Self::ONE;
        while exponent > 0 {
            if exponent & 1 == 1 {
                power = power * base;
            }
            base = base * base;
            exponent >>= 1;
        }
        power
    }

    /// The multiplicative inverse, by Fermat's little theorem; 0 for 0.
    pub fn inverse(self) -> Self {
        self.pow(P.saturating_sub(2))
    }
}

impl<const P: u32> From<u32> for Element<P> {
    fn from(number: u32) -> Self {
        Self::new(number.into())
    }
}

impl<const P: u32> Add for Element<P> {
    type Output = Self;

    fn add(self, other: Self) -> Self {
        Self::new(u64::from(self.0) + u64::from(other.0))
    }
}

impl<const P: u32> Sub for Element<P> {
    type Output = Self;

    fn sub(self, other: Self) -> Self {
        Self::new(u64::from(self.0) + u64::from(P - other.0))
    }
}

impl<const P: u32> Mul for Element<P> {
    type Output = Self;

    fn mul(self, other: Self) -> Self {
        Self::new(u64::from(self.0) * u64::from(other.0))
    }
}

impl<const P: u32> Sum for Element<P> {
    fn sum<I: Iterator<Item = Self>>(terms: I) -> Self {
        terms.fold(Self::ZERO, Add::add)
    }
}

/// Check 8: every number of `list` is an element.
pub(crate) fn expect_elements<const P: u32>(list: &[u32]) -> Result<(), Refusal> {
    require(list.iter().all(|&number| number < P), Refusal::Number)
}

#[cfg(test)]
mod tests {
    use super::*;

    #[test]
    fn every_nonzero_element_of_a_small_field_has_its_inverse() {
        for x in 1..7 {
            let x = Element::<7>::from(x);
            assert_eq!(x * x.inverse(), Element::ONE);
        }
        assert_eq!(Element::<7>::ZERO.inverse(), Element::ZERO);
    }

    #[test]
    fn arithmetic_at_the_edge_of_the_large_field() {
        let top = Element::<MODULUS>::from(MODULUS - 1);
        assert_eq!(top + Element::ONE, Element::ZERO);
        assert_eq!(Element::ZERO - Element::ONE, top);
        assert_eq!(top * top, Element::ONE);
        assert_eq!(top.inverse(), top);
        assert_eq!(Element::<MODULUS>::from(u32::MAX).value(), 1);
    }

    #[test]
    fn the_modulus_has_no_small_divisor() {
        let root = 46_341;
        assert!((2..=root).all(|d| !MODULUS.is_multiple_of(d)));
    }
}
