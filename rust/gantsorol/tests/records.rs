//! Records: each refusal of the two calls at its limit, their order, and every number of the record
//! against plain code, for every n and t up to 32 posts and both numbers of check points, and for some
//! beyond.

use gantsorol::{block_len, message_len, record_len, record_put, record_remove};
use gantsorol::{Refusal, MAX_POSTS, MODULUS};

const N: usize = 5;
const T: usize = 2;

/// A record's length and its messages', for five posts with one check point each and with two.
const LENGTHS: [(usize, usize, usize); 2] = [(1, 20, 3), (2, 30, 5)];

/// n, t and the number of check points a post.
type Size = [usize; 3];

/// A record in which every post is present, each number another.
fn full([n, t, points]: Size) -> Vec<u32> {
    let number = |place| if place % block_len(t, points) == 0 { 1 } else { place as u32 };
    (0..record_len(n, t, points)).map(number).collect()
}

/// Both calls answer so, and a refused one leaves the record as it was.
#[track_caller]
fn check(size: Size, len: usize, post: usize, message: &[u32], put: u8, removed: u8) {
    let [n, t, points] = size;
    let answer = |number| Refusal::from_number(number).map_or(Ok(()), Err);
    let before: Vec<u32> = (0..len as u32).collect();
    let mut record = before.clone();
    assert_eq!(record_put(n, t, points, &mut record, post, message), answer(put));
    assert_eq!(record == before, put != 0);
    let mut record = before.clone();
    assert_eq!(record_remove(n, t, points, &mut record, post), answer(removed));
    assert_eq!(record == before, removed != 0);
}

/// The other arguments are in order for the size; where this is none, nothing else is looked at.
#[track_caller]
fn check_shape(size: Size, expected: u8) {
    let [n, t, points] = size;
    let message = vec![7; message_len(t, points)];
    check(size, record_len(n, t, points), 1, &message, expected, expected);
}

#[test]
fn the_number_of_posts() {
    for (n, expected) in [(0, 1), (1, 1), (2, 0), (MAX_POSTS, 0), (MAX_POSTS + 1, 1)] {
        check_shape([n, 1, 1], expected);
        check_shape([n, 1, 2], expected);
    }
    check([usize::MAX, 1, 1], 0, 1, &[7, 7], 1, 1);
}

#[test]
fn the_threshold() {
    for (t, expected) in [(0, 2), (1, 0), (N - 1, 0), (N, 2)] {
        check_shape([N, t, 1], expected);
        check_shape([N, t, 2], expected);
    }
    check([N, usize::MAX, 1], 0, 1, &[7, 7], 2, 2);
}

#[test]
fn the_number_of_points() {
    for (points, expected) in [(0, 4), (1, 0), (2, 0), (3, 4), (255, 4)] {
        check_shape([N, T, points], expected);
    }
    check([N, T, usize::MAX], 20, 1, &[7; 3], 4, 4);
    check([N, T, 1 << 32 | 1], 20, 1, &[7; 3], 4, 4);
}

#[test]
fn the_post() {
    for (points, len, message) in LENGTHS {
        for (post, expected) in [(0, 3), (1, 0), (N, 0), (N + 1, 3), (usize::MAX, 3)] {
            check([N, T, points], len, post, &vec![7; message], expected, expected);
        }
    }
}

#[test]
fn the_lengths() {
    for (points, len, message) in LENGTHS {
        for (given, expected) in [(0, 5), (len - 1, 5), (len, 0), (len + 1, 5)] {
            check([N, T, points], given, 1, &vec![7; message], expected, expected);
        }
        for (given, expected) in [(0, 5), (message - 1, 5), (message, 0), (message + 1, 5)] {
            check([N, T, points], len, 1, &vec![7; given], expected, 0);
        }
    }
}

#[test]
fn the_numbers_of_the_message() {
    for (points, len, count) in LENGTHS {
        for place in 0..count {
            for (number, expected) in [(MODULUS - 1, 0), (MODULUS, 8), (u32::MAX, 8)] {
                let mut message = vec![7; count];
                message[place] = number;
                check([N, T, points], len, N, &message, expected, 0);
            }
        }
    }
    // What stood in the record is nobody's concern.
    let mut record = [MODULUS; 20];
    assert_eq!(record_put(N, T, 1, &mut record, 1, &[1, 2, 3]), Ok(()));
    assert_eq!(record[..5], [1, 1, 2, 3, MODULUS]);
    let mut record = [MODULUS; 30];
    assert_eq!(record_put(N, T, 2, &mut record, 1, &[1, 2, 3, 4, 5]), Ok(()));
    assert_eq!(record[..7], [1, 1, 2, 3, 4, 5, MODULUS]);
}

#[test]
fn the_first_refusal_in_order() {
    let bad = [MODULUS; T + 1];
    check([1, 0, 0], 0, 0, &bad[..1], 1, 1);
    check([N, 0, 0], 0, 0, &bad[..1], 2, 2);
    check([N, T, 0], 0, 0, &bad[..1], 3, 3);
    check([N, T, 0], 0, 1, &bad[..1], 4, 4);
    check([N, T, 1], 0, 1, &bad, 5, 5);
    check([N, T, 1], 20, 1, &bad[..1], 5, 0);
    check([N, T, 1], 20, 1, &bad, 8, 0);
}

/// A post's block taken out and put in again, every number of the record compared.
fn check_block(size: Size, post: usize) {
    let [n, t, points] = size;
    let count = points * t + 1;
    let message: Vec<u32> = (0..count as u32).map(|k| MODULUS - 1 - k).collect();
    let from = (post - 1) * (count + 1);
    let (mut record, mut expected) = (full(size), full(size));
    expected[from] = 0;
    expected[from + 1..][..count].fill(0);
    assert_eq!(record_remove(n, t, points, &mut record, post), Ok(()));
    assert_eq!(record, expected, "{size:?} {post}");
    expected[from] = 1;
    expected[from + 1..][..count].copy_from_slice(&message);
    assert_eq!(record_put(n, t, points, &mut record, post, &message), Ok(()));
    assert_eq!(record, expected, "{size:?} {post}");
}

#[test]
fn every_block_of_every_small_shape() {
    for n in 2..=32 {
        for t in 1..n {
            for points in [1, 2] {
                (1..=n).for_each(|post| check_block([n, t, points], post));
            }
        }
    }
}

#[test]
fn some_blocks_of_large_shapes() {
    for n in [33, 128, MAX_POSTS - 1, MAX_POSTS] {
        for t in [1, n / 2, n - 1] {
            for post in [1, 2, n / 2, n - 1, n] {
                [1, 2].into_iter().for_each(|points| check_block([n, t, points], post));
            }
        }
    }
}
