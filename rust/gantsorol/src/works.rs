//! The factory's calls, the dealer's number, and pack files.

use crate::{sys, Refusal, Written};

/// The dealer's number.
#[repr(C)]
#[derive(Clone, Copy, Debug, PartialEq, Eq)]
#[must_use = "the answer is the number, or says that the call was refused"]
pub struct Number {
    /// The refusal's number, 0 for none.
    pub refusal: u8,
    /// The number; 0 when refused.
    pub value: u32,
}

impl Number {
    /// The number, or the refusal.
    #[inline]
    pub fn accepted(self) -> Result<u32, Refusal> {
        Refusal::check(self.refusal)?;
        Ok(self.value)
    }
}

/// Writes all posts' parts of a drawn row into `out`, post 1 first.
///
/// `points` is the number of check points a post has, 1 or 2, and `check_points` are those of all
/// posts, both of a post following one another; `draw` has [`row_draw_len`](crate::row_draw_len)
/// numbers, `out` n rows. Refusals 1, 2, 4, 5 and 8.
#[inline]
pub fn factory_row(
    n: usize,
    t: usize,
    points: usize,
    check_points: &[u32],
    draw: &[u32],
    out: &mut [u32],
) -> Result<(), Refusal> {
    // SAFETY: each list is a borrowed slice's pointer and length, and `out` overlaps no other.
    Refusal::check(unsafe {
        sys::gantsorol_factory_row(
            n,
            t,
            points,
            check_points.as_ptr(),
            check_points.len(),
            draw.as_ptr(),
            draw.len(),
            out.as_mut_ptr(),
            out.len(),
        )
    })
}

/// Writes all posts' parts of a drawn triple into `out`: of l, then of l', then of l''.
///
/// `points` and `check_points` are as in [`factory_row`], `draw` has
/// [`triple_draw_len`](crate::triple_draw_len) numbers, `out` 3n rows. Refusals 1, 2, 4, 5 and 8.
#[inline]
pub fn factory_triple(
    n: usize,
    t: usize,
    points: usize,
    check_points: &[u32],
    draw: &[u32],
    out: &mut [u32],
) -> Result<(), Refusal> {
    // SAFETY: each list is a borrowed slice's pointer and length, and `out` overlaps no other.
    Refusal::check(unsafe {
        sys::gantsorol_factory_triple(
            n,
            t,
            points,
            check_points.as_ptr(),
            check_points.len(),
            draw.as_ptr(),
            draw.len(),
            out.as_mut_ptr(),
            out.len(),
        )
    })
}

/// The number c = u − f(0) that the dealer of u broadcasts, where `constant` is f(0). Refusal 8.
#[inline]
pub fn dealer_number(u: u32, constant: u32) -> Number {
    // SAFETY: the function takes any values.
    unsafe { sys::gantsorol_dealer_number(u, constant) }
}

/// Writes a post's pack file at the start of `out`: its `S` line, or `W` line where a post has two
/// check points, then `R` and `T` lines by rising row; the rest stays as it is. The length is the
/// file's.
///
/// `points` and `check_points` are as in [`factory_row`]. `kinds` has [`ROWS`](crate::ROWS) bytes: 0 for an empty row, 1
/// for a raw one, 3 for a triple's first, whose other two rows have 0. `draws` has by rising row
/// [`row_draw_len`](crate::row_draw_len) numbers for each 1 and
/// [`triple_draw_len`](crate::triple_draw_len) for each 3, wherever it stands. Refusals 1 to 8
/// and 12.
#[inline]
pub fn write_pack(
    n: usize,
    t: usize,
    post: usize,
    points: usize,
    check_points: &[u32],
    kinds: &[u8],
    draws: &[u32],
    out: &mut [u8],
) -> Written {
    // SAFETY: each list is a borrowed slice's pointer and length, and `out` overlaps no other.
    unsafe {
        sys::gantsorol_write_pack(
            n,
            t,
            post,
            points,
            check_points.as_ptr(),
            check_points.len(),
            kinds.as_ptr(),
            kinds.len(),
            draws.as_ptr(),
            draws.len(),
            out.as_mut_ptr(),
            out.len(),
        )
    }
}
