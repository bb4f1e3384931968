//! For the works' testers: what a stolen set of posts gives away.

use crate::{sys, Refusal};

/// Finds the draw behind another secret: writes to `out` the draw with the same check points that shows
/// the listed posts the same record, for one row only loaded and dealt, by none of them, where `wanted`
/// is dealt in place of `secret`. Equal secrets give the draw itself, even for all n posts.
///
/// `points` and `check_points` are as in [`factory_row`](crate::factory_row), `draw` and `out` have
/// [`row_draw_len`](crate::row_draw_len) numbers. `posts` are rising numbers from 1 to n, of any length:
/// up to t of them, or any where the secrets are equal; it may be empty. Refusals 1, 2, 4, 5, 8, 18 and 19.
///
/// It is run at the works, which knows the draw and the check points: its time depends on the check
/// points of the listed posts.
///
/// ```
/// // f = 7 + 4z, and v1, v2, v3; post 3 is stolen. Its v3 stays, and so does its share.
/// let draw = [7, 4, 1, 2, 3, 1, 5, 6];
/// let mut other = [0; 8];
/// gantsorol::other_draw(3, 1, 1, &[2, 3, 5], &draw, 100, 42, &[3], &mut other)?;
/// assert_eq!(other[6..], draw[6..]);
/// let (mut packs, mut others) = ([0; 24], [0; 24]);
/// gantsorol::factory_row(3, 1, 1, &[2, 3, 5], &draw, &mut packs)?;
/// gantsorol::factory_row(3, 1, 1, &[2, 3, 5], &other, &mut others)?;
/// assert_eq!(packs[16..], others[16..]);
/// # Ok::<(), gantsorol::Refusal>(())
/// ```
#[inline]
pub fn other_draw(
    n: usize,
    t: usize,
    points: usize,
    check_points: &[u32],
    draw: &[u32],
    secret: u32,
    wanted: u32,
    posts: &[u32],
    out: &mut [u32],
) -> Result<(), Refusal> {
    // SAFETY: each list is a borrowed slice's pointer and length, and `out` overlaps no other.
    Refusal::check(unsafe {
        sys::gantsorol_other_draw(
            n,
            t,
            points,
            check_points.as_ptr(),
            check_points.len(),
            draw.as_ptr(),
            draw.len(),
            secret,
            wanted,
            posts.as_ptr(),
            posts.len(),
            out.as_mut_ptr(),
            out.len(),
        )
    })
}
