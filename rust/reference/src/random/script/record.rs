//! Records of openings, with honest, absent and forged blocks.

use super::Author;
use crate::random::{unnoticed, SharedRow};
use crate::MODULUS;

/// What a record is made for.
#[derive(Clone, Copy, PartialEq, Eq)]
pub(super) enum Heard {
    /// With the own post at least t+1 honest ones, and no lie that is accepted.
    Enough,
    /// One honest post too few, and no lie that is accepted: 9.
    TooFew,
    /// Any number of honest posts, and lies that are accepted: 9, 13 or a false number.
    Lies,
}

impl Author<'_> {
    /// A record for a row. The own block is nonsense.
    pub(super) fn record(&mut self, shared: &SharedRow, heard: Heard) -> Vec<u32> {
        let others = self.shape.posts() - 1;
        let needed = self.shape.shares_needed() - 1;
        let mut honest = match heard {
            Heard::Enough => self.rng.between(needed, others),
            Heard::TooFew => needed - 1,
            Heard::Lies => self.rng.between(needed - 1, others - 1),
        };
        let mut posts_left = others;
        let mut record = vec![];
        for post in 1..=self.shape.posts() {
            if post == self.post {
                record.extend((0..self.shape.block()).map(|_| self.rng.number()));
            } else {
                let chosen = self.rng.below(posts_left) < honest;
                honest -= usize::from(chosen);
                posts_left -= 1;
                record.extend(self.block(&shared.v[post - 1], chosen, heard));
            }
        }
        record
    }

    /// A block: honest, or else absent over nonsense, or forged.
    fn block(&mut self, polynomial: &[u32], honest: bool, heard: Heard) -> Vec<u32> {
        if honest {
            return [&[1], polynomial].concat();
        }
        let message = match self.rng.below(4) {
            0 => {
                let nonsense = (0..polynomial.len()).map(|_| self.rng.number());
                return std::iter::once(0).chain(nonsense).collect();
            }
            1 | 2 if heard == Heard::Lies => self.accepted_lie(polynomial),
            1 if heard == Heard::Enough => self.harmless_lie(polynomial),
            _ => self.noticed(polynomial),
        };
        [vec![1], message].concat()
    }

    /// Another polynomial that differs at every check point.
    fn noticed(&mut self, polynomial: &[u32]) -> Vec<u32> {
        let mut forged = polynomial.to_vec();
        forged[0] = (forged[0] + 1 + self.rng.below(1000) as u32) % MODULUS;
        forged
    }

    /// Another polynomial that agrees at the check points, with another constant: a false share.
    fn accepted_lie(&mut self, polynomial: &[u32]) -> Vec<u32> {
        let multiple = self.rng.element();
        unnoticed(polynomial, 0, multiple, self.points())
    }

    /// Another polynomial that agrees at the check points and at 0, so that its share is true. With
    /// t = 1 there is none.
    fn harmless_lie(&mut self, polynomial: &[u32]) -> Vec<u32> {
        let most = polynomial.len() - 1 - self.shape.points();
        if most == 0 {
            return polynomial.to_vec();
        }
        let (place, multiple) = (self.rng.between(1, most), self.rng.element());
        unnoticed(polynomial, place, multiple, self.points())
    }
}
