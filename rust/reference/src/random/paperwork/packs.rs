//! Random pack files.

use super::{room, WritePack};
use crate::random::damage::random_length;
use crate::random::{check_points, join, Rng, SharedRow};
use crate::{Shape, ROWS, STREET_POSTS, TRIPLE};

impl WritePack {
    /// A valid call, whose part is at times too short.
    pub(super) fn valid(rng: &mut Rng, shape: Shape) -> Self {
        let (n, t, k) = (shape.posts(), shape.threshold(), shape.points());
        let points = check_points(rng, shape);
        let post = rng.between(1, n);
        let kinds = random_kinds(rng, n);
        let own = shape.points_of(&points, post);
        let heading = [n, t, post].map(|number| number as u64).into_iter();
        let letter = if k == 1 { "S" } else { "W" };
        let mut file = join(letter, heading.chain(own.iter().map(|&point| point.into())));
        let mut draws = vec![];
        for (row, &kind) in kinds.iter().enumerate() {
            let (letter, pack, draw) = match kind {
                1 => {
                    let shared = SharedRow::random(rng, shape);
                    ("R", shared.row_of(post, own), shared.draw())
                }
                3 => {
                    let triple = SharedRow::random_triple(rng, shape);
                    let rows = triple.each_ref().map(|row| row.row_of(post, own));
                    ("T", rows.concat(), SharedRow::triple_draw(&triple))
                }
                _ => continue,
            };
            file.extend(join(
                letter,
                [row as u64].into_iter().chain(pack.into_iter().map(u64::from)),
            ));
            draws.extend(draw);
        }
        Self { n, t, k, post, points, kinds, draws, out: room(rng, &file) }
    }

    /// Makes one kind, or how many there are, different; mostly the draws then have their length.
    pub(super) fn damage_kinds(&mut self, rng: &mut Rng) {
        match rng.below(8) {
            0 => {
                let length = random_length(rng, self.kinds.len());
                self.kinds.resize(length, 0);
            }
            1 => self.set(rng, &[ROWS - 2, ROWS - 1], &[3]),
            2 => {
                let inside = self.covered();
                self.set(rng, &inside, &[1, 1, 2, 3, 4, 255]);
            }
            3 => self.set(rng, &(0..ROWS).collect::<Vec<_>>(), &[2, 4, 5, 128, 255]),
            _ => self.set(rng, &(0..ROWS).collect::<Vec<_>>(), &[0, 1, 3]),
        }
        if let (false, Ok(shape)) = (rng.one_in(4), Shape::checked(self.n, self.t, self.k)) {
            let length = |&kind: &u8| match kind {
                1 => shape.row_draw(),
                3 => shape.triple_draw(),
                _ => 0,
            };
            self.draws.resize(self.kinds.iter().map(length).sum(), rng.element());
        }
    }

    /// The rows that a triple covers.
    fn covered(&self) -> Vec<usize> {
        let covered = |row: &usize| self.kinds[row.saturating_sub(2)..*row].contains(&3);
        (0..self.kinds.len()).filter(covered).collect()
    }

    fn set(&mut self, rng: &mut Rng, places: &[usize], kinds: &[u8]) {
        let place = rng.pick_any(places).and_then(|place| self.kinds.get_mut(place));
        place.into_iter().for_each(|kind| *kind = rng.pick(kinds));
    }
}

/// Kinds of 96 rows, each rightly placed; few of them for many posts, as these take long.
fn random_kinds(rng: &mut Rng, n: usize) -> Vec<u8> {
    let mut kinds = vec![0; ROWS];
    let most = match n {
        0..=4 if rng.one_in(10) => ROWS,
        0..=8 => 8,
        9..=STREET_POSTS => 3,
        _ => 2,
    };
    for _ in 0..rng.below(most + 1) {
        let row = rng.below(ROWS);
        let free = |row: usize| kinds[row] == 0 && !kinds[row.saturating_sub(2)..row].contains(&3);
        if free(row) {
            let room = row + TRIPLE <= ROWS && kinds[row..][..TRIPLE] == [0; TRIPLE];
            kinds[row] = if room { rng.pick(&[1, 3]) } else { 1 };
        }
    }
    kinds
}
