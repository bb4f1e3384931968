//! Relations: a sum of terms that is 0, shown without its numbers.

use crate::{sys, Answer, Session, NO_ROW};

/// A term of a relation: a coefficient times a row's number, or times the product of two rows'
/// numbers.
///
/// The fields may hold anything: each call checks what it needs.
#[repr(C)]
#[derive(Clone, Copy, Debug, PartialEq, Eq)]
pub struct Term {
    /// An element.
    pub coefficient: u32,
    /// The row, or the first factor's row.
    pub row: u8,
    /// The second factor's row, perhaps the same, or [`NO_ROW`].
    pub second: u8,
    /// The first row of the product's triple; not looked at where the term is no product.
    pub first: u8,
}

/// A row as a term has it. Above 95 there is none: those that are no byte, and the byte that stands
/// for no second row, are told as another that gets [`Refusal::NoSuchRow`](crate::Refusal::NoSuchRow).
const fn told(row: usize) -> u8 {
    if row < NO_ROW as usize {
        row as u8
    } else {
        NO_ROW - 1
    }
}

impl Term {
    /// A coefficient times a row's number.
    pub const fn plain(coefficient: u32, row: usize) -> Self {
        Self { coefficient, row: told(row), second: NO_ROW, first: 0 }
    }

    /// A coefficient times the product of two rows' numbers, with the triple at `first`.
    pub const fn product(coefficient: u32, row: usize, second: usize, first: usize) -> Self {
        Self { coefficient, row: told(row), second: told(second), first: told(first) }
    }
}

impl Session {
    /// The masks of all product terms of a relation, [`masks_len`](crate::masks_len) numbers for
    /// each of them in the order of the terms, as [`masks`](Self::masks) makes those of one: each
    /// term's rows are held, each triple is unused and named once. Refusals 1 to 5, 14, 6 to 8.
    #[inline]
    pub fn relation_masks(self, rows: &[u32], terms: &[Term], out: &mut [u32]) -> Answer {
        // SAFETY: each list is a borrowed slice's pointer and length, and `out` overlaps no other.
        unsafe {
            sys::gantsorol_relation_masks(
                self,
                rows.as_ptr(),
                rows.len(),
                terms.as_ptr(),
                terms.len(),
                out.as_mut_ptr(),
                out.len(),
            )
        }
    }

    /// Finishes all product terms of a relation, each as [`collect`](Self::collect) and then
    /// [`multiply`](Self::multiply) do, with two records for each of them in the order of the
    /// terms, that of a − l first; and writes the sum of all terms into the empty row `row`, which
    /// becomes held. Opened, it is 0 exactly when the relation holds; the posts that may call for that
    /// are those that may for every row of the terms. A refused finish changes no triple and may be
    /// called again.
    /// Refusals 1 to 5, 14, 6 to 9, 13.
    #[inline]
    pub fn relation_finish(
        self,
        rows: &mut [u32],
        terms: &[Term],
        row: usize,
        records: &[u32],
    ) -> Answer {
        // SAFETY: each list is a borrowed slice's pointer and length, and `rows` overlaps no other.
        unsafe {
            sys::gantsorol_relation_finish(
                self,
                rows.as_mut_ptr(),
                rows.len(),
                terms.as_ptr(),
                terms.len(),
                row,
                records.as_ptr(),
                records.len(),
            )
        }
    }
}
