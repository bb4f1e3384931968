//! Secrets shared, and what one post hears of the others.

use gantsorol::Refusal;
use reference::random::Rng;

use crate::station::Station;
use crate::Field;

/// A post, and the lines of the others in random order.
fn one_post(rng: &mut Rng, mut lines: Vec<Vec<u8>>) -> (usize, Vec<Vec<u8>>) {
    let own = rng.below(lines.len());
    lines.remove(own);
    for end in (1..lines.len()).rev() {
        lines.swap(end, rng.below(end + 1));
    }
    (own, lines)
}

/// One secret in row 7, one post, and the lines of the others.
pub fn shared_secret(rng: &mut Rng, station: &mut Station) -> (u32, usize, Vec<Vec<u8>>) {
    let secret = rng.element();
    station.share(rng, 7, secret);
    let lines = station.lines(rng, 7);
    let (own, lines) = one_post(rng, lines);
    (secret, own, lines)
}

/// Secrets in rows 0 and 1, whose masks by the triple at row 2 are sent.
pub struct Masked {
    pub station: Station,
    product: u32,
    /// The two records with every post's line.
    pub all: [Vec<u32>; 2],
    pub own: usize,
    /// The lines of the others.
    pub lines: Vec<Vec<u8>>,
}

impl Masked {
    pub fn new(rng: &mut Rng, mut station: Station) -> Self {
        let [a, b] = [(); 2].map(|()| rng.element());
        station.share(rng, 0, a);
        station.share(rng, 1, b);
        station.load_triple(rng, 2);
        let lines = station.masks(rng, 0, 1, 2);
        let all = station.records(rng, &lines);
        let (own, lines) = one_post(rng, lines);
        Self { station, product: (Field::from(a) * b.into()).value(), all, own, lines }
    }

    /// The post gets 9 with any of the `short` records and then finishes with `enough`, the others
    /// with all; whatever each of them opens is the product.
    #[track_caller]
    pub fn check(mut self, rng: &mut Rng, short: &[[Vec<u32>; 2]], enough: &[Vec<u32>; 2]) {
        for records in short {
            assert_eq!(
                self.station.posts[self.own].finish(2, records),
                Err(Refusal::TooFewAccepted)
            );
        }
        for (index, post) in self.station.shuffled(rng) {
            let records = if index == self.own { enough } else { &self.all };
            assert_eq!(post.finish(2, records), Ok(()));
        }
        assert_eq!(self.station.open(rng, 4), vec![self.product; self.station.n]);
    }
}

/// Two records with either of them taken from the second pair.
pub fn mixed([a, b]: &[Vec<u32>; 2], [x, y]: &[Vec<u32>; 2]) -> [[Vec<u32>; 2]; 2] {
    [[x.clone(), b.clone()], [a.clone(), y.clone()]]
}
