//! Broadcast lines, written and read.

use crate::{sys, Refusal};

/// A writer's answer.
#[repr(C)]
#[derive(Clone, Copy, Debug, PartialEq, Eq)]
#[must_use = "the answer says how long the line is, and whether the call was refused"]
pub struct Written {
    /// The refusal's number, 0 for none.
    pub refusal: u8,
    /// The length of the line, its line feed included, or of the file; 0 when refused.
    pub len: usize,
}

impl Written {
    /// The length of the line or of the file, or the refusal.
    #[inline]
    pub fn accepted(self) -> Result<usize, Refusal> {
        Refusal::check(self.refusal)?;
        Ok(self.len)
    }
}

/// The reader's answer; all 0 but the refusal when refused.
#[repr(C)]
#[derive(Clone, Copy, Debug, PartialEq, Eq)]
#[must_use = "the answer says what the line is, and whether the call was refused"]
pub struct Line {
    /// The refusal's number, 0 for none.
    pub refusal: u8,
    /// `D`, `O` or `M`.
    pub letter: u8,
    /// The row, or the triple's first row.
    pub row: usize,
    /// The sender; 0 for a `D`, which names none.
    pub post: usize,
}

impl Line {
    /// The line, or the refusal.
    #[inline]
    pub fn accepted(self) -> Result<Self, Refusal> {
        Refusal::check(self.refusal)?;
        Ok(self)
    }
}

/// Writes `D,row,c` at the start of `out`; the rest stays as it is. Refusals 1, 2, 6, 8 and 12.
#[inline]
pub fn write_deal(n: usize, t: usize, row: usize, c: u32, out: &mut [u8]) -> Written {
    // SAFETY: the list is a borrowed slice's pointer and length.
    unsafe { sys::gantsorol_write_deal(n, t, row, c, out.as_mut_ptr(), out.len()) }
}

/// Writes `O,row,post,` and a message's coefficients at the start of `out`; the rest stays as it is.
/// Refusals 1 to 6, 8 and 12.
#[inline]
pub fn write_opening(
    n: usize,
    t: usize,
    points: usize,
    row: usize,
    post: usize,
    coefficients: &[u32],
    out: &mut [u8],
) -> Written {
    // SAFETY: each list is a borrowed slice's pointer and length, and `out` overlaps no other.
    unsafe {
        sys::gantsorol_write_opening(
            n,
            t,
            points,
            row,
            post,
            coefficients.as_ptr(),
            coefficients.len(),
            out.as_mut_ptr(),
            out.len(),
        )
    }
}

/// Writes `M,row,post,` and the coefficients of both masks at the start of `out`, where `row` is a
/// triple's first; the rest stays as it is. Refusals 1 to 6, 8 and 12.
#[inline]
pub fn write_masks(
    n: usize,
    t: usize,
    points: usize,
    row: usize,
    post: usize,
    coefficients: &[u32],
    out: &mut [u8],
) -> Written {
    // SAFETY: each list is a borrowed slice's pointer and length, and `out` overlaps no other.
    unsafe {
        sys::gantsorol_write_masks(
            n,
            t,
            points,
            row,
            post,
            coefficients.as_ptr(),
            coefficients.len(),
            out.as_mut_ptr(),
            out.len(),
        )
    }
}

/// Reads a line, its line feed included, and fills `out`, [`line_list_len`](crate::line_list_len)
/// numbers, with its elements and then with zeros. Refusals 1, 2, 4, 5, 10 and 11.
#[inline]
pub fn read(n: usize, t: usize, points: usize, line: &[u8], out: &mut [u32]) -> Line {
    // SAFETY: each list is a borrowed slice's pointer and length, and `out` overlaps no other.
    unsafe {
        sys::gantsorol_read(n, t, points, line.as_ptr(), line.len(), out.as_mut_ptr(), out.len())
    }
}
