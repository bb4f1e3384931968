//! Lines kept until they are used: `O` lines for a row, `M` lines for a triple.

use crate::shape::Shape;

/// "`O` lines are kept for one row", in one record; "`M` lines, kept for one triple as `O` lines are
/// for a row", in two: of a − l and of b − l'.
pub(super) struct Kept<const RECORDS: usize> {
    shape: Shape,
    /// The row, or first row of a triple, that the records are for.
    row: Option<usize>,
    records: [Vec<u32>; RECORDS],
}

impl<const RECORDS: usize> Kept<RECORDS> {
    /// Nothing kept.
    pub(super) fn new(shape: Shape) -> Self {
        Self { shape, row: None, records: Self::empty(shape) }
    }

    fn empty(shape: Shape) -> [Vec<u32>; RECORDS] {
        [(); RECORDS].map(|()| vec![0; shape.record()])
    }

    /// "One for another row empties the record first, a second from one post replaces the first."
    pub(super) fn keep(&mut self, row: usize, post: usize, elements: &[u32]) {
        if self.row != Some(row) {
            self.row = Some(row);
            self.records = Self::empty(self.shape);
        }
        let parts = elements.chunks_exact(self.shape.coefficients());
        for (record, part) in self.records.iter_mut().zip(parts) {
            let block = &mut record[(post - 1) * self.shape.block()..][..self.shape.block()];
            block[0] = 1;
            block[1..].copy_from_slice(part);
        }
    }

    /// The records for this row: "a G for another row opens with an empty one".
    pub(super) fn records(&self, row: usize) -> [Vec<u32>; RECORDS] {
        if self.row == Some(row) {
            self.records.clone()
        } else {
            Self::empty(self.shape)
        }
    }
}
