//! The factory's row. Lists are of the size of the station: up to 32 posts, or up to the most.

use gantsorol::{check_points_len, message_len, packs_len, row_draw_len, row_len, MAX_POSTS};

use super::{any_beyond, checked_points, checked_shape, is_point, powers, reduced, value};
use super::{FEW, FEW_SENT, MOST_SENT, P};

/// The factory's row.
pub fn factory_row(
    n: usize,
    t: usize,
    points: usize,
    check_points: &[u32],
    draw: &[u32],
    out: &mut [u32],
) -> u8 {
    let write = match (n <= FEW, points) {
        (true, 1) => write_packs::<FEW, FEW>,
        (true, _) => write_packs::<FEW, FEW_SENT>,
        (false, 1) => write_packs::<MAX_POSTS, MAX_POSTS>,
        (false, _) => write_packs::<MAX_POSTS, MOST_SENT>,
    };
    match checked_factory([n, t, points], check_points, draw, out) {
        Ok(()) => write([n, t, points], check_points, draw, out),
        Err(refusal) => return refusal,
    }
    0
}

/// Refusals 1 to 8.
fn checked_factory(
    [n, t, points]: [usize; 3],
    check_points: &[u32],
    draw: &[u32],
    out: &[u32],
) -> Result<(), u8> {
    checked_shape(n, t)?;
    checked_points(points)?;
    let lengths =
        [check_points_len(n, points), row_draw_len(n, t, points), packs_len(n, t, points)];
    match () {
        () if !check_points.iter().all(|&point| is_point(point)) => Err(4),
        () if [check_points.len(), draw.len(), out.len()] != lengths => Err(5),
        () if any_beyond(draw) => Err(8),
        () => Ok(()),
    }
}

/// All posts' rows: the public sums once, then of each post the powers of its check points, and for each of them a sum of products
/// for each polynomial.
fn write_packs<const N: usize, const SENT: usize>(
    [n, t, points]: [usize; 3],
    check_points: &[u32],
    draw: &[u32],
    out: &mut [u32],
) {
    let count = message_len(t, points);
    let (f, vs) = draw.split_at(t + 1);
    let mut sums = [0; N];
    for (j, v) in vs.chunks_exact(count).enumerate() {
        let powers = powers::<N>(j as u32 + 1, t + 1);
        sums[j] = reduced(u64::from(v[0]) + value_in::<N>(f, &powers)) as u32;
    }
    let rows = out.chunks_exact_mut(row_len(n, t, points));
    for (i, (row, own_points)) in rows.zip(check_points.chunks_exact(points)).enumerate() {
        let (own, seen) = row.split_at_mut(count);
        let (checks, public) = seen.split_at_mut(points * n);
        own.copy_from_slice(&vs[i * count..][..count]);
        for (which, &point) in own_points.iter().enumerate() {
            let powers = powers::<SENT>(point, count);
            let checks = checks[which..].iter_mut().step_by(points);
            for (check, v) in checks.zip(vs.chunks_exact(count)) {
                *check = value_in::<N>(v, &powers) as u32;
            }
        }
        public.copy_from_slice(&sums[..n]);
    }
}

/// A polynomial's value: with few posts it is quicker here to cut each product in halves.
fn value_in<const N: usize>(coefficients: &[u32], powers: &[u32]) -> u64 {
    if N > FEW {
        return value(coefficients, powers);
    }
    let (mut low, mut high) = (0, 0);
    for (&coefficient, &power) in coefficients.iter().zip(powers) {
        let term = u64::from(coefficient) * u64::from(power);
        low += term & P;
        high += term >> 31;
    }
    reduced(low + high)
}
