//! A small seeded generator: xorshift64*, seeded through splitmix64.

use crate::MODULUS;

/// A stream of pseudorandom numbers that its seed fixes.
#[derive(Clone, Debug)]
pub struct Rng(u64);

impl Rng {
    /// The stream of `seed`; near seeds give unrelated streams.
    pub fn new(seed: u64) -> Self {
        let mut z = seed.wrapping_add(0x9E37_79B9_7F4A_7C15);
        z = (z ^ (z >> 30)).wrapping_mul(0xBF58_476D_1CE4_E5B9);
        z = (z ^ (z >> 27)).wrapping_mul(0x94D0_49BB_1331_11EB);
        z ^= z >> 31;
        Self(if z == 0 { 1 } else { z })
    }

    /// The next 64 bits.
    pub fn bits(&mut self) -> u64 {
        self.0 ^= self.0 >> 12;
        self.0 ^= self.0 << 25;
        self.0 ^= self.0 >> 27;
        self.0.wrapping_mul(0x2545_F491_4F6C_DD1D)
    }

    /// A number below `bound`, which is above 0.
    pub fn below(&mut self, bound: usize) -> usize {
        ((u128::from(self.bits()) * bound as u128) >> 64) as usize
    }

    /// A number from `low` to `high`, both included.
    pub fn between(&mut self, low: usize, high: usize) -> usize {
        low + self.below(high - low + 1)
    }

    /// True once in `times` on average.
    pub fn one_in(&mut self, times: usize) -> bool {
        self.below(times) == 0
    }

    /// One of `choices`, which aren't empty.
    pub fn pick<T: Copy>(&mut self, choices: &[T]) -> T {
        choices[self.below(choices.len())]
    }

    /// One of `choices`, `None` when there are none.
    pub fn pick_any<T: Copy>(&mut self, choices: &[T]) -> Option<T> {
        (!choices.is_empty()).then(|| self.pick(choices))
    }

    /// An element, now and then one at the edge.
    pub fn element(&mut self) -> u32 {
        if self.one_in(8) {
            self.pick(&[0, 1, 2, MODULUS - 2, MODULUS - 1])
        } else {
            self.below(MODULUS as usize) as u32
        }
    }

    /// `count` elements.
    pub fn elements(&mut self, count: usize) -> Vec<u32> {
        (0..count).map(|_| self.element()).collect()
    }

    /// A number that isn't an element: p or more.
    pub fn no_element(&mut self) -> u32 {
        match self.below(4) {
            0 | 1 => MODULUS,
            2 => self.pick(&[MODULUS + 1, u32::MAX, 1 << 31, u32::MAX - 1]),
            _ => MODULUS + self.below(1 << 31) as u32,
        }
    }

    /// Any 32-bit number, among them 0 and numbers that are no elements.
    pub fn number(&mut self) -> u32 {
        match self.below(4) {
            0 => self.no_element(),
            1 => self.pick(&[0, 0, 1, 2, 3]),
            _ => self.element(),
        }
    }

    /// Any size, mostly near the bounds of rows and posts.
    pub fn size(&mut self) -> usize {
        match self.below(6) {
            0 => self.pick(&[0, 1, 2, 3, 31, 32, 33, 34]),
            1 => self.pick(&[92, 93, 94, 95, 96, 97, 98]),
            2 => self.pick(&[254, 255, 256, 257, 1 << 16, 1 << 31, 1 << 32]),
            3 => self.pick(&[usize::MAX, usize::MAX - 1, usize::MAX / 2 + 1, (1 << 32) + 2]),
            _ => self.below(100),
        }
    }
}
