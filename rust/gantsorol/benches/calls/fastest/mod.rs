//! Calls as fast as plain Rust makes them, with every check and the same answers.

mod factory;
mod opening;
mod other_draw;
mod reading;
mod writing;

use gantsorol::{masks_len, message_len, MAX_POINTS, MAX_POSTS, MODULUS};

pub use factory::factory_row;
pub use opening::{open, open_by_value};
pub use other_draw::other_draw;
pub use reading::read;
pub use writing::{write_masks, write_opening};

const P: u64 = MODULUS as u64;

/// So many posts are few: lists of this length are enough for them.
const FEW: usize = 32;

/// And of so few the opening's lists are shorter still.
const VERY_FEW: usize = 8;

/// The most numbers of a line.
const MOST_NUMBERS: usize = masks_len(MAX_POSTS - 1, MAX_POINTS);

/// The most coefficients of a polynomial that is sent, with few posts and with the most.
const VERY_FEW_SENT: usize = message_len(VERY_FEW - 1, MAX_POINTS);
const FEW_SENT: usize = message_len(FEW - 1, MAX_POINTS);
const MOST_SENT: usize = message_len(MAX_POSTS - 1, MAX_POINTS);

/// x modulo p, for x below 2^62: p is 2^31 − 1.
const fn reduced(x: u64) -> u64 {
    let once = (x & P) + (x >> 31);
    let twice = (once & P) + (once >> 31);
    if twice >= P {
        twice - P
    } else {
        twice
    }
}

/// a b modulo p, for elements: once folded, less than 2p is left.
const fn product(a: u64, b: u64) -> u64 {
    let whole = a * b;
    let once = (whole & P) + (whole >> 31);
    if once >= P {
        once - P
    } else {
        once
    }
}

/// Refusals 1 and 2.
fn checked_shape(n: usize, t: usize) -> Result<(), u8> {
    match () {
        () if !(2..=MAX_POSTS).contains(&n) => Err(1),
        () if t < 1 || t >= n => Err(2),
        () => Ok(()),
    }
}

/// Refusal 4 of a number of check points.
fn checked_points(points: usize) -> Result<(), u8> {
    match points {
        1 | 2 => Ok(()),
        _ => Err(4),
    }
}

fn is_point(point: u32) -> bool {
    point != 0 && point < MODULUS
}

/// Whether a number is no element; no early end, so that several are looked at at once.
fn any_beyond(numbers: &[u32]) -> bool {
    numbers.iter().fold(false, |beyond, &number| beyond | (number >= MODULUS))
}

/// The powers of x, each from two that are about half as high, so that they don't wait in a row.
/// Numbers of 32 bits, so that their products with others are taken two at a time.
fn powers<const N: usize>(x: u32, count: usize) -> [u32; N] {
    let mut powers = [1; N];
    powers[1] = x;
    for exponent in 2..count {
        let (half, rest) = (powers[exponent / 2], powers[exponent - exponent / 2]);
        powers[exponent] = product(half.into(), rest.into()) as u32;
    }
    powers
}

/// A polynomial's value. Two products with elements fit into 64 bits and are added up first; then the low and the high halves by
/// themselves.
fn value(coefficients: &[u32], powers: &[u32]) -> u64 {
    let term = |coefficient: &u32, power: &u32| u64::from(*coefficient) * u64::from(*power);
    let (pairs, last) = coefficients.as_chunks::<2>();
    let (mut low, mut high) = (0, 0);
    for ([first, second], [power, next]) in pairs.iter().zip(powers.as_chunks::<2>().0) {
        let two = term(first, power) + term(second, next);
        low += two & P;
        high += two >> 31;
    }
    let rest: u64 = last.iter().zip(&powers[2 * pairs.len()..]).map(|(a, b)| term(a, b)).sum();
    reduced(low + (rest & P) + high + (rest >> 31))
}
