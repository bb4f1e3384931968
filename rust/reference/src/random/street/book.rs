//! What the street program has taken, as far as a clerk can tell.

use std::collections::BTreeMap;

use crate::random::SharedRow;
use crate::{mark, ROWS, TRIPLE};

/// Marks and polynomials of the rows, the factors of each triple, and the masks kept.
#[derive(Clone)]
pub(super) struct Book {
    marks: [u8; ROWS],
    shared: Vec<Option<SharedRow>>,
    factors: [(usize, usize); ROWS],
    /// The triple that masks are kept for, and what each post sent.
    masks_of: usize,
    masks: BTreeMap<usize, Heard>,
}

/// What a mask line counts for at this post; its own ones are not looked at.
#[derive(Clone, Copy, PartialEq, Eq)]
pub(super) enum Heard {
    True,
    Lie,
    Rejected,
}

impl Default for Book {
    fn default() -> Self {
        Self {
            marks: [mark::EMPTY; ROWS],
            shared: vec![None; ROWS],
            factors: [(0, 0); ROWS],
            masks_of: 0,
            masks: BTreeMap::new(),
        }
    }
}

impl Book {
    pub(super) fn marked(&self, mark: u8) -> Vec<usize> {
        (0..ROWS).filter(|&row| self.has(row, mark)).collect()
    }

    pub(super) fn shared(&self, row: usize) -> Option<&SharedRow> {
        self.shared[row].as_ref()
    }

    fn has(&self, row: usize, mark: u8) -> bool {
        self.marks[row] == mark
    }

    fn keep(&mut self, row: usize, mark: u8, shared: SharedRow) {
        self.marks[row] = mark;
        self.shared[row] = Some(shared);
    }

    pub(super) fn load(&mut self, row: usize, shared: SharedRow) {
        if self.has(row, mark::EMPTY) {
            self.keep(row, mark::RAW, shared);
        }
    }

    pub(super) fn load_triple(&mut self, first: usize, triple: [SharedRow; 3]) {
        if self.marks[first..][..TRIPLE] == [mark::EMPTY; TRIPLE] {
            let marks = [mark::UNUSED, mark::FOLLOWING, mark::FOLLOWING];
            for ((shared, mark), row) in triple.into_iter().zip(marks).zip(first..) {
                self.keep(row, mark, shared);
            }
        }
    }

    pub(super) fn deal(&mut self, row: usize, c: u32) {
        if self.has(row, mark::RAW) {
            let dealt = self.shared[row].clone().map(|shared| shared.plus_public(c));
            self.shared[row] = dealt;
            self.marks[row] = mark::HELD;
        }
    }

    pub(super) fn linear(&mut self, dest: usize, (a, b): (usize, usize), scale: u32, fee: u32) {
        let held = self.has(a, mark::HELD) && self.has(b, mark::HELD);
        if let (true, Some(a), Some(b)) = (held, self.shared(a), self.shared(b)) {
            if self.has(dest, mark::EMPTY) {
                self.keep(dest, mark::HELD, a.plus_scaled(scale, b).plus_public(fee));
            }
        }
    }

    pub(super) fn make_masks(&mut self, (a, b): (usize, usize), first: usize) {
        if self.has(a, mark::HELD) && self.has(b, mark::HELD) && self.has(first, mark::UNUSED) {
            self.marks[first] = mark::MASKED;
            self.factors[first] = (a, b);
        }
    }

    /// The differences whose polynomials are the masks of a triple.
    pub(super) fn differences(&self, first: usize) -> Option<[SharedRow; 2]> {
        let (a, b) = self.factors[first];
        let left = self.shared(a)?.minus(self.shared(first)?);
        Some([left, self.shared(b)?.minus(self.shared(first + 1)?)])
    }

    /// The program keeps a mask line.
    pub(super) fn mask_line(&mut self, first: usize, post: usize, heard: Heard) {
        if self.masks_of != first {
            self.masks_of = first;
            self.masks.clear();
        }
        self.masks.insert(post, heard);
    }

    /// Whether the masks of `others` posts beside the own are kept, and no lie that is accepted.
    fn enough(&self, first: usize, others: usize) -> bool {
        let count = |what: Heard| self.masks.values().filter(|&&heard| heard == what).count();
        self.masks_of == first && count(Heard::True) >= others && count(Heard::Lie) == 0
    }

    /// A finish, which needs the masks of `others` posts beside the own.
    pub(super) fn finish(&mut self, first: usize, others: usize) {
        let (a, b) = self.factors[first];
        if !self.enough(first, others) || !self.has(first, mark::MASKED) {
            return;
        }
        let triple = [first, first + 1, first + 2].map(|row| self.shared[row].clone());
        let rows = (self.shared(a), self.shared(b), triple);
        if let (Some(a), Some(b), [Some(l), Some(l2), Some(l3)]) = rows {
            let product = SharedRow::product(a, b, &[l, l2, l3]);
            self.marks[first..first + 2].fill(mark::SPENT);
            self.keep(first + 2, mark::HELD, product);
        }
    }
}
