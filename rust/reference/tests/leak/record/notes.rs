//! What a group's record says of a run, as bytes.

use reference::{dealer_number, write_deal};

use super::{Post, Station, Step};
use crate::draws::Draw;

/// So many numbers are compared at once, to find those that a call changed.
const CHUNK: usize = 48;

impl<const P: u32> Station<'_, P> {
    /// "The group's check points, its packs".
    pub(super) fn note_packs(&mut self, points: &[u32]) {
        for &post in self.group {
            self.note_numbers(self.shape.points_of(points, post));
            for raw in 0..self.plan.raw.len() {
                self.note_numbers(&self.row_pack(raw, post));
            }
            for triple in 0..self.plan.triples.len() {
                self.note_numbers(&self.triple_pack(triple, post));
            }
        }
    }

    /// "f of each row whose dealer is a post of the group", and the D line of every row.
    pub(super) fn note_deals(&mut self, draw: &Draw, secrets: &[u32]) {
        let mut line = [0; 16];
        for (raw, &secret) in self.plan.raw.iter().zip(secrets) {
            let pad = draw.rows[self.index_of(raw.pad_of)];
            let (refusal, c) = dealer_number::<P>(secret, pad[0]);
            assert_eq!(refusal, 0, "secrets are elements");
            self.cs.push(c);
            let written = write_deal::<P>(self.plan.n, self.plan.t, raw.row, c, &mut line);
            self.record.extend(&line[..written.length]);
            if self.group.contains(&raw.dealer) {
                self.note_numbers(&pad[..self.shape.dealer_coefficients()]);
            }
        }
    }

    pub(super) fn note_numbers(&mut self, numbers: &[u32]) {
        self.record.extend(numbers.iter().map(|&number| number as u8));
    }

    /// The dealers' state of a post of the group, after a step that is lent it.
    pub(super) fn note_dealers(&mut self, step: Step, post: usize) {
        let lent = matches!(step, Step::Place { .. } | Step::PlaceFixed { .. } | Step::Turn);
        if lent && self.group.contains(&post) {
            self.record.extend(self.posts[post - 1].dealers);
        }
    }

    /// "After each call, its rows": the numbers that changed, and an end mark.
    pub(super) fn note_rows(&mut self, post: usize) {
        let Post { rows, seen, .. } = &mut self.posts[post - 1];
        for (chunk, (new, old)) in rows.chunks(CHUNK).zip(seen.chunks_mut(CHUNK)).enumerate() {
            if new == old {
                continue;
            }
            for (place, (&new, old)) in new.iter().zip(old).enumerate().filter(|(_, (n, o))| n != o)
            {
                *old = new;
                let [low, high] = ((chunk * CHUNK + place) as u16).to_le_bytes();
                self.record.extend([low, high, new as u8]);
            }
        }
        self.record.extend([0xFF; 2]);
    }
}
