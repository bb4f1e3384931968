//! Request (xiv): find the draw behind another secret.

mod common;

use common::*;
use reference::random::{check_points, shape, street_shape, unwritten, Rng, SharedRow};
use reference::{Element, Library, Shape, MODULUS, REFERENCE};

type Field = Element<MODULUS>;

/// The draw returned, of a call that is taken.
#[track_caller]
fn found(
    shape: Shape,
    points: &[u32],
    draw: &[u32],
    secrets: [u32; 2],
    posts: &[usize],
) -> Vec<u32> {
    let (n, t, k) = (shape.posts(), shape.threshold(), shape.points());
    let mut out = unwritten(shape.row_draw());
    let [secret, wanted] = secrets;
    let refusal = REFERENCE.other_draw(n, t, k, points, draw, secret, wanted, posts, &mut out);
    assert_eq!(refusal, 0);
    out
}

fn by_hand() -> Shape {
    Shape::checked(3, 1, 1).unwrap()
}

/// 42 in place of P1's 100, with post 3 stolen: f = −51 + 70/3 z, v1 = 119/3 − 86/15 z,
/// v2 = 67/3 − 43/15 z, and v3 stays.
#[test]
fn forty_two_in_place_of_a_hundred() {
    let other = found(by_hand(), &HAND_POINTS, &HAND_DRAW, [100, 42], &[3]);
    assert_eq!(other, [2147483596, 1431655788, 715827922, 1145324606, 1431655787, 572662303, 5, 6]);
    let times = |factor: u32, place: usize| (Field::from(factor) * other[place].into()).value();
    assert_eq!(other[0], MODULUS - 51);
    assert_eq!([times(3, 1), times(3, 2), times(3, 4)], [70, 119, 67]);
    assert_eq!([times(15, 3), times(15, 5)], [MODULUS - 86, MODULUS - 43]);
    // P1's c, and P4, post 3's row.
    assert_eq!(REFERENCE.dealer_number(42, other[0]), (0, 93));
    let mut packs = [0; 24];
    assert_eq!(REFERENCE.factory_row(3, 1, 1, &HAND_POINTS, &other, &mut packs), 0);
    assert_eq!(packs[16..], [5, 6, 11, 8, 35, 12, 18, 24]);
}

/// "With no posts listed only f changes", by its constant.
#[test]
fn no_posts_listed() {
    let other = found(by_hand(), &HAND_POINTS, &HAND_DRAW, [100, 42], &[]);
    assert_eq!(other, [MODULUS - 51, 4, 1, 2, 3, 1, 5, 6]);
    let points = [2, 4, 3, 6, 5, 7];
    let draw = [7, 4, 1, 2, 1, 3, 1, 2, 5, 6, 1];
    let other = found(Shape::checked(3, 1, 2).unwrap(), &points, &draw, [0, 9], &[]);
    assert_eq!(other, [16, 4, 1, 2, 1, 3, 1, 2, 5, 6, 1]);
}

/// "If the two secrets are equal it returns the draw it was given, even for all n posts."
#[test]
fn equal_secrets() {
    for posts in [&[] as &[usize], &[2], &[1, 3], &[1, 2, 3]] {
        for secret in [0, 100, MODULUS - 1] {
            let same = found(by_hand(), &HAND_POINTS, &HAND_DRAW, [secret, secret], posts);
            assert_eq!(same, HAND_DRAW);
        }
    }
}

/// How many coefficients a polynomial changes by, up to the last that isn't 0; f's first.
fn lengths(shape: Shape, draw: &[u32], other: &[u32]) -> Vec<usize> {
    let length = |(old, new): (&[u32], &[u32])| {
        let last = (0..old.len()).rev().find(|&place| old[place] != new[place]);
        last.map_or(0, |place| place + 1)
    };
    let (f, v) = (shape.dealer_coefficients(), shape.coefficients());
    let polynomials = draw[f..].chunks(v).zip(other[f..].chunks(v));
    std::iter::once((&draw[..f], &other[..f])).chain(polynomials).map(length).collect()
}

/// "Equal points count once", of two posts or of one.
#[test]
fn equal_check_points() {
    let two_posts = Shape::checked(4, 2, 1).unwrap();
    let draw: Vec<u32> = (1..16).collect();
    let changed = |points: &[u32], posts: &[usize]| {
        let other = found(two_posts, points, &draw, [1, 5], posts);
        lengths(two_posts, &draw, &other)
    };
    assert_eq!(changed(&[5, 7, 6, 9], &[1, 3]), [3, 0, 3, 0, 3]);
    assert_eq!(changed(&[5, 7, 5, 9], &[1, 3]), [3, 0, 2, 0, 2]);
    assert_eq!(changed(&[5, 5, 5, 9], &[1, 3]), [3, 0, 2, 0, 2]);
    assert_eq!(changed(&[5, 7, 5, 9], &[3]), [2, 2, 2, 0, 2]);
    assert_eq!(changed(&[5, 7, 5, 9], &[]), [1, 0, 0, 0, 0]);

    let two_points = Shape::checked(3, 2, 2).unwrap();
    let draw: Vec<u32> = (1..19).collect();
    let changed = |points: &[u32], posts: &[usize]| {
        let other = found(two_points, points, &draw, [1, 5], posts);
        lengths(two_points, &draw, &other)
    };
    assert_eq!(changed(&[2, 3, 4, 5, 6, 7], &[1, 2]), [3, 0, 0, 5]);
    assert_eq!(changed(&[2, 3, 3, 5, 6, 7], &[1, 2]), [3, 0, 0, 4]);
    assert_eq!(changed(&[2, 2, 4, 5, 6, 7], &[1, 2]), [3, 0, 0, 4]);
    assert_eq!(changed(&[2, 3, 2, 3, 6, 7], &[1, 2]), [3, 0, 0, 3]);
    assert_eq!(changed(&[2, 2, 2, 2, 6, 7], &[1, 2]), [3, 0, 0, 2]);
    assert_eq!(changed(&[2, 2, 4, 5, 6, 7], &[1]), [2, 0, 2, 2]);
    assert_eq!(changed(&[2, 3, 4, 5, 6, 7], &[3]), [2, 3, 3, 0]);
}

/// What a call is given; by default a right one.
struct Given<'a> {
    n: usize,
    t: usize,
    k: usize,
    points: &'a [u32],
    draw: &'a [u32],
    secrets: [u32; 2],
    posts: &'a [usize],
    out: usize,
}

const RIGHT: Given = Given {
    n: 3,
    t: 1,
    k: 1,
    points: &HAND_POINTS,
    draw: &HAND_DRAW,
    secrets: [100, 42],
    posts: &[3],
    out: 8,
};

#[track_caller]
fn assert_refusal(given: Given, refusal: u8) {
    let Given { n, t, k, points, draw, secrets: [secret, wanted], posts, out } = given;
    let mut out = unwritten(out);
    let met = REFERENCE.other_draw(n, t, k, points, draw, secret, wanted, posts, &mut out);
    assert_eq!(met, refusal);
    assert_eq!(out == unwritten(out.len()), refusal != 0);
}

const P: u32 = MODULUS;

/// 1, 2, 4, 5, 8, 18, 19: each with everything behind it wrong too.
#[test]
fn refusals_in_order() {
    assert_refusal(RIGHT, 0);
    let wrong = || Given {
        n: 3,
        t: 1,
        k: 1,
        points: &[2, 3, 5, 7],
        draw: &[P; 9],
        secrets: [P, P],
        posts: &[2, 2],
        out: 9,
    };
    for n in [0, 1, 256, 257, usize::MAX] {
        assert_refusal(Given { n, t: 0, k: 0, points: &[0], ..wrong() }, 1);
    }
    for t in [0, 3, 4, usize::MAX] {
        assert_refusal(Given { t, k: 0, points: &[0], ..wrong() }, 2);
    }
    for k in [0, 3, usize::MAX] {
        assert_refusal(Given { k, points: &[1], ..wrong() }, 4);
    }
    for points in [[0, 3, 5], [2, 3, P], [2, u32::MAX, 5]] {
        assert_refusal(Given { points: &points, ..wrong() }, 4);
    }
    assert_refusal(Given { points: &[2, 3, 5, 0], ..wrong() }, 4);
    assert_refusal(wrong(), 5);
    assert_refusal(Given { points: &[2, 3], ..RIGHT }, 5);
    assert_refusal(Given { k: 2, ..RIGHT }, 5);
    for length in [0, 7, 9] {
        assert_refusal(Given { draw: &vec![P; length], ..RIGHT }, 5);
        assert_refusal(Given { out: length, draw: &[P; 8], ..RIGHT }, 5);
    }
}

/// Check 8: both secrets and every number of the draw, before the list of posts.
#[test]
fn numbers_that_are_no_elements() {
    for posts in [&[3usize] as &[usize], &[0], &[1, 2]] {
        for secrets in [[P, 42], [100, P], [P, P], [u32::MAX, 0]] {
            assert_refusal(Given { secrets, posts, ..RIGHT }, 8);
        }
        for place in 0..8 {
            let mut draw = HAND_DRAW;
            draw[place] = P;
            assert_refusal(Given { draw: &draw, posts, ..RIGHT }, 8);
        }
    }
    assert_refusal(Given { draw: &[P - 1; 8], secrets: [P - 1, 0], ..RIGHT }, 0);
}

/// 18, also with equal secrets and with more than t posts; then 19.
#[test]
fn lists_of_posts() {
    let not_rising: &[&[usize]] =
        &[&[0], &[4], &[0, 1], &[3, 4], &[1, 1], &[2, 1], &[1, 3, 2], &[1, 2, 3, 4], &[usize::MAX]];
    for &posts in not_rising {
        for secrets in [[100, 42], [5, 5]] {
            assert_refusal(Given { posts, secrets, ..RIGHT }, 18);
        }
    }
    for posts in [&[1usize, 2] as &[usize], &[1, 3], &[2, 3], &[1, 2, 3]] {
        assert_refusal(Given { posts, ..RIGHT }, 19);
        let draw: &[u32] = &[1; 12];
        let t_2 = Given { t: 2, draw, out: 12, posts, ..RIGHT };
        assert_refusal(t_2, if posts.len() == 3 { 19 } else { 0 });
    }
    for posts in [&[1usize] as &[usize], &[2], &[3], &[]] {
        assert_refusal(Given { posts, ..RIGHT }, 0);
    }
}

/// "Shows those posts the same record for the wanted secret": the dealer's number and their packs.
/// Asked back, it gives the draw itself.
#[track_caller]
fn assert_same_record(rng: &mut Rng, shape: Shape) {
    let (n, t, k) = (shape.posts(), shape.threshold(), shape.points());
    let points = check_points(rng, shape);
    let draw = SharedRow::random(rng, shape).draw();
    let [secret, wanted] = [rng.element(), rng.element()];
    let often = rng.pick(&[1, 2, n]);
    let mut posts: Vec<usize> = (1..=n).filter(|_| rng.one_in(often)).collect();
    posts.truncate(t);
    let other = found(shape, &points, &draw, [secret, wanted], &posts);
    assert_eq!(REFERENCE.dealer_number(wanted, other[0]), REFERENCE.dealer_number(secret, draw[0]));
    let packs = [&draw, &other].map(|draw| {
        let mut packs = vec![0; shape.row_packs()];
        assert_eq!(REFERENCE.factory_row(n, t, k, &points, draw, &mut packs), 0);
        packs
    });
    let part =
        |packs: &[u32], post: usize| packs[(post - 1) * shape.row()..][..shape.row()].to_vec();
    for &post in &posts {
        assert_eq!(part(&packs[0], post), part(&packs[1], post));
    }
    let f = if secret == wanted { 0 } else { posts.len() + 1 };
    assert_eq!(lengths(shape, &draw, &other)[0], f);
    assert_eq!(found(shape, &points, &other, [wanted, secret], &posts), draw);
}

#[test]
fn random_stations() {
    for seed in 0..400 {
        let mut rng = Rng::new(seed);
        let shape = if seed % 4 == 0 { shape(&mut rng) } else { street_shape(&mut rng) };
        assert_same_record(&mut rng, shape);
    }
    for (n, t) in [(255, 254), (255, 1), (254, 127)] {
        for k in [1, 2] {
            assert_same_record(&mut Rng::new(9), Shape::checked(n, t, k).unwrap());
        }
    }
}
