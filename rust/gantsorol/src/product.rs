//! The three calls of a product: its masks, both opened, the third row written.

use crate::{sys, Answer, Session};

impl Session {
    /// The first step of a product: for held a and b, perhaps the same, and the unused triple at
    /// `first`, writes the masks into `out`, [`masks_len`](crate::masks_len) numbers: the
    /// coefficients of a − l, then of b − l'. The triple serves no other product.
    /// Refusals 1 to 8.
    #[inline]
    pub fn masks(self, rows: &[u32], a: usize, b: usize, first: usize, out: &mut [u32]) -> Answer {
        // SAFETY: each list is a borrowed slice's pointer and length, and `out` overlaps no other.
        unsafe {
            sys::gantsorol_masks(
                self,
                rows.as_ptr(),
                rows.len(),
                a,
                b,
                first,
                out.as_mut_ptr(),
                out.len(),
            )
        }
    }

    /// The second step: opens a − l with the record `record_a` and b − l' with `record_b`, each like
    /// [`open`](Self::open), and remembers the two numbers. A refused collect may be called again;
    /// after one that was done, another gets 7. Refusals 1 to 9, 13.
    #[inline]
    pub fn collect(self, rows: &[u32], first: usize, record_a: &[u32], record_b: &[u32]) -> Answer {
        // SAFETY: each list is a borrowed slice's pointer and length; none is written.
        unsafe {
            sys::gantsorol_collect(
                self,
                rows.as_ptr(),
                rows.len(),
                first,
                record_a.as_ptr(),
                record_a.len(),
                record_b.as_ptr(),
                record_b.len(),
            )
        }
    }

    /// The third step: writes the product, from the two numbers remembered, into row `first` + 2,
    /// which becomes held. The posts that may call for it are those that may for both factors, whose
    /// rows must still be held. Refusals 1 to 8.
    #[inline]
    pub fn multiply(self, rows: &mut [u32], first: usize) -> Answer {
        // SAFETY: the list is a borrowed slice's pointer and length.
        unsafe { sys::gantsorol_multiply(self, rows.as_mut_ptr(), rows.len(), first) }
    }
}
