//! The valid calls of a script that multiply.

use super::record::Heard;
use super::{Author, Step};
use crate::random::{Call, SharedRow};
use crate::{mark, Term, MAX_TERMS, NO_ROW};

impl Author<'_> {
    pub(super) fn masks(&mut self) -> Option<()> {
        let (a, b) = (self.pick(mark::HELD)?, self.pick(mark::HELD)?);
        let first = self.pick(mark::UNUSED)?;
        self.masked(first, a, b);
        self.step(Call::Masks { a, b, first, out: self.shape.masks() }, None);
        Some(())
    }

    fn masked(&mut self, first: usize, a: usize, b: usize) {
        self.marks[first] = mark::MASKED;
        self.factors[first] = (a, b);
    }

    pub(super) fn open_masks(&mut self) -> Option<()> {
        let first = self.pick(mark::MASKED)?;
        for _ in 0..2 {
            let [record, record2] = self.some_records(first);
            let call = Call::OpenMasks { first, record, record2 };
            self.steps.push(Step::trial(call));
        }
        let [record, record2] = self.records(first, [Heard::Enough; 2]);
        self.opened(first);
        self.step(Call::OpenMasks { first, record, record2 }, None);
        Some(())
    }

    /// The masks' numbers are remembered.
    fn opened(&mut self, first: usize) {
        let numbers = self.differences(first).map(|difference| difference.number());
        self.marks[first] = mark::OPENED;
        self.opened[first] = numbers;
    }

    pub(super) fn multiply(&mut self) -> Option<()> {
        let first = self.pick(mark::OPENED)?;
        self.multiplied(first);
        self.step(Call::Multiply { first }, None);
        Some(())
    }

    /// The rows a − l and b − l'.
    fn differences(&self, first: usize) -> [SharedRow; 2] {
        let (a, b) = self.factors[first];
        let y = self.shared(a).minus(&self.shared(first));
        [y, self.shared(b).minus(&self.shared(first + 1))]
    }

    /// Records of a triple's masks.
    fn records(&mut self, first: usize, heard: [Heard; 2]) -> [Vec<u32>; 2] {
        let [y, y2] = self.differences(first);
        [self.record(&y, heard[0]), self.record(&y2, heard[1])]
    }

    /// Records of a triple's masks, each of any kind.
    fn some_records(&mut self, first: usize) -> [Vec<u32>; 2] {
        let kinds = [Heard::Enough, Heard::Enough, Heard::TooFew, Heard::Lies];
        let heard = [(); 2].map(|()| self.rng.pick(&kinds));
        self.records(first, heard)
    }

    /// The triple's third row becomes the product.
    fn multiplied(&mut self, first: usize) {
        let (a, b) = self.factors[first];
        let triple = [first, first + 1, first + 2].map(|row| self.shared(row));
        let product = SharedRow::product(&self.shared(a), &self.shared(b), &triple);
        self.marks[first..first + 2].fill(mark::SPENT);
        self.keep(first + 2, mark::HELD, product);
        self.made_from(first + 2, &[a, b]);
    }

    /// Masks of up to three product terms, among terms of one row.
    pub(super) fn relation_masks(&mut self) -> Option<()> {
        let held = self.marked(mark::HELD);
        let unused = self.some_of(mark::UNUSED);
        let mut terms = self.plain_terms(&held, unused.len());
        for first in unused {
            let (a, b) = (self.rng.pick_any(&held)?, self.rng.pick(&held));
            self.masked(first, a, b);
            self.insert_product(&mut terms, first);
        }
        let out = self.shape.masks() * terms.iter().filter_map(triple_of).count();
        (!terms.is_empty()).then(|| self.step(Call::RelationMasks { terms, out }, None))
    }

    /// A relation over up to three triples whose masks were sent, by whichever call.
    pub(super) fn relation_finish(&mut self) -> Option<()> {
        let dest = self.pick(mark::EMPTY)?;
        let held = self.marked(mark::HELD);
        let firsts = self.some_of(mark::MASKED);
        let mut terms = self.plain_terms(&held, firsts.len());
        for first in firsts {
            self.insert_product(&mut terms, first);
        }
        if terms.is_empty() {
            return None;
        }
        let firsts: Vec<usize> = terms.iter().filter_map(triple_of).collect();
        for _ in 0..2 {
            let records = firsts.iter().flat_map(|&first| self.some_records(first).concat());
            let call =
                Call::RelationFinish { terms: terms.clone(), records: records.collect(), dest };
            self.steps.push(Step::trial(call));
        }
        let records =
            firsts.iter().flat_map(|&first| self.records(first, [Heard::Enough; 2]).concat());
        let records = records.collect();
        for &first in &firsts {
            self.opened(first);
            self.multiplied(first);
        }
        self.keep_sum(&terms, dest);
        self.step(Call::RelationFinish { terms, records, dest }, None);
        Some(())
    }

    /// Up to three rows with a mark.
    fn some_of(&mut self, mark: u8) -> Vec<usize> {
        let mut rows = self.marked(mark);
        let most = self.rng.below(4);
        while rows.len() > most {
            rows.remove(self.rng.below(rows.len()));
        }
        rows
    }

    /// A few terms of one row; now and then so many that with `others` more there are 32.
    fn plain_terms(&mut self, held: &[usize], others: usize) -> Vec<Term> {
        let count = if self.rng.one_in(10) { MAX_TERMS - others } else { self.rng.below(3) };
        let mut terms = vec![];
        for _ in 0..count {
            let Some(row) = self.rng.pick_any(held) else { break };
            let (coefficient, first) = (self.rng.element(), self.rng.size());
            terms.push(Term { coefficient, row, second: NO_ROW, first });
        }
        terms
    }

    /// Inserts the product term of a triple somewhere.
    fn insert_product(&mut self, terms: &mut Vec<Term>, first: usize) {
        let (row, second) = self.factors[first];
        let term = Term { coefficient: self.rng.element(), row, second, first };
        terms.insert(self.rng.below(terms.len() + 1), term);
    }

    /// The row of the terms' sum.
    fn keep_sum(&mut self, terms: &[Term], dest: usize) {
        let number = |term: &Term| self.shared(triple_of(term).map_or(term.row, |first| first + 2));
        let zero = SharedRow::zero(self.shape);
        let sum =
            terms.iter().fold(zero, |sum, term| sum.plus_scaled(term.coefficient, &number(term)));
        self.keep(dest, mark::HELD, sum);
        let rows = terms.iter().flat_map(|term| [term.row, term.second]);
        self.made_from(dest, &rows.filter(|&row| row != NO_ROW).collect::<Vec<_>>());
    }
}

/// The first row of a product term's triple.
fn triple_of(term: &Term) -> Option<usize> {
    (term.second != NO_ROW).then_some(term.first)
}
