//! Random draws behind other secrets.

use super::{OtherDraw, PaperworkOutcome};
use crate::random::{check_points, unwritten, Rng, SharedRow};
use crate::{Library, Shape};

impl OtherDraw {
    /// A valid call: up to t posts, or any with equal secrets.
    pub(super) fn valid(rng: &mut Rng, shape: Shape) -> Self {
        let (n, t, k) = (shape.posts(), shape.threshold(), shape.points());
        let secret = rng.element();
        let wanted = if rng.one_in(5) { secret } else { rng.element() };
        let most = if wanted == secret { n } else { t };
        let count = if rng.one_in(3) { most } else { rng.below(most + 1) };
        Self {
            n,
            t,
            k,
            points: check_points(rng, shape),
            draw: SharedRow::random(rng, shape).draw(),
            secret,
            wanted,
            posts: rising(rng, n, count),
            out: shape.row_draw(),
        }
    }

    pub(super) fn perform(&self, library: &impl Library) -> PaperworkOutcome {
        let Self { n, t, k, ref points, ref draw, secret, wanted, ref posts, out } = *self;
        let mut out = unwritten(out);
        let refusal = library.other_draw(n, t, k, points, draw, secret, wanted, posts, &mut out);
        PaperworkOutcome::Factory { refusal, out }
    }

    /// Makes the list of posts different, or one secret as the other.
    pub(super) fn damage_posts(&mut self, rng: &mut Rng) {
        let place = rng.below(self.posts.len().max(1));
        match rng.below(9) {
            0 => self.posts = (1..=self.t.wrapping_add(1).min(300)).collect(),
            1 => self.posts = (1..=self.n.min(300)).collect(),
            2 => self.posts = rising(rng, self.n.min(300), self.t.wrapping_add(1)),
            3 => self.posts.insert(0, 0),
            4 => self.posts.push(self.n.wrapping_add(rng.below(2))),
            5 => self.posts.reverse(),
            6 => self.wanted = self.secret,
            7 => self.posts.extend(self.posts.get(place).copied()),
            _ => self.posts.iter_mut().skip(place).take(1).for_each(|post| *post = rng.size()),
        }
    }
}

/// So many of the posts 1 to n, or all of them.
fn rising(rng: &mut Rng, n: usize, count: usize) -> Vec<usize> {
    let mut posts: Vec<usize> = (1..=n).collect();
    while posts.len() > count {
        posts.remove(rng.below(posts.len()));
    }
    posts
}
