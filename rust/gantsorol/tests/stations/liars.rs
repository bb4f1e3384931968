//! Posts that send other polynomials than their own.

use gantsorol::{block_len, message_len};
use reference::random::Rng;
use reference::MODULUS;

use crate::station::Station;
use crate::Field;

/// The record with `liars` of the blocks that are not the own post's forged.
pub fn with_liars(rng: &mut Rng, station: &Station, own: usize, liars: usize, record: &mut [u32]) {
    let others: Vec<usize> = (0..station.n).filter(|&post| post != own).collect();
    let from = rng.below(others.len());
    for liar in others.iter().cycle().skip(from).take(liars) {
        let w = station.check_points_of(own);
        forge(rng, w, block(station, *liar, record));
    }
}

/// A post's polynomial in a record; the first post is 0.
pub fn block<'a>(station: &Station, post: usize, record: &'a mut [u32]) -> &'a mut [u32] {
    let (t, points) = (station.t, station.points);
    &mut record[post * block_len(t, points) + 1..][..message_len(t, points)]
}

/// A multiple of z − w more: the value at w stays, and at any other point it does not.
pub fn pass_at(w: u32, by: u32, polynomial: &mut [u32]) {
    let (w, by) = (Field::from(w), Field::from(by));
    polynomial[0] = (Field::from(polynomial[0]) - by * w).value();
    polynomial[1] = (Field::from(polynomial[1]) + by).value();
}

/// Another polynomial: one coefficient changed, which no check point but 0 hides; or, where the post has
/// two check points and they differ, one that passes at one of the two and is refused by the other.
fn forge(rng: &mut Rng, check_points: &[u32], polynomial: &mut [u32]) {
    if let [first, second] = *check_points {
        if first != second && rng.one_in(2) {
            let by = 1 + rng.below(MODULUS as usize - 1) as u32;
            return pass_at(rng.pick(&[first, second]), by, polynomial);
        }
    }
    let place = rng.below(polynomial.len());
    let change = 1 + rng.below(MODULUS as usize - 1) as u32;
    polynomial[place] = (Field::from(polynomial[place]) + change.into()).value();
}
