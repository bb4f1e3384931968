//! Records: what the posts sent of one row, a block for each.

use crate::{sys, Refusal};

/// Puts what a post sent, the coefficients of its message or of one of its masks, into the post's
/// block of `record`, which becomes present.
///
/// `record` has [`record_len`](crate::record_len) numbers; all zeros is a record in which every post
/// is absent. The other blocks stay as they are. Refusals 1 to 5 and 8.
///
/// ```
/// let mut record = [0; gantsorol::record_len(3, 1, 1)];
/// gantsorol::record_put(3, 1, 1, &mut record, 2, &[3, 1])?;
/// assert_eq!(record, [0, 0, 0, 1, 3, 1, 0, 0, 0]);
/// # Ok::<(), gantsorol::Refusal>(())
/// ```
#[inline]
pub fn record_put(
    n: usize,
    t: usize,
    points: usize,
    record: &mut [u32],
    post: usize,
    message: &[u32],
) -> Result<(), Refusal> {
    // SAFETY: each list is a borrowed slice's pointer and length, and `record` overlaps no other.
    Refusal::check(unsafe {
        sys::gantsorol_record_put(
            n,
            t,
            points,
            record.as_mut_ptr(),
            record.len(),
            post,
            message.as_ptr(),
            message.len(),
        )
    })
}

/// Takes a post's message out of `record` again: its block becomes absent, all zeros.
///
/// The other blocks stay as they are. Refusals 1 to 5.
#[inline]
pub fn record_remove(
    n: usize,
    t: usize,
    points: usize,
    record: &mut [u32],
    post: usize,
) -> Result<(), Refusal> {
    // SAFETY: the list is a borrowed slice's pointer and length.
    Refusal::check(unsafe {
        sys::gantsorol_record_remove(n, t, points, record.as_mut_ptr(), record.len(), post)
    })
}
