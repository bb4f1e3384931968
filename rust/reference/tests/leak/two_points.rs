//! Plans with two check points a post.

use super::*;

fn with_two_points(plan: Plan) -> Plan {
    Plan { k: 2, ..plan }
}

fn deal() -> Plan {
    with_two_points(plan(2, 1, &[raw(0)], &[], &[LoadRow(0), Deal(0)]))
}

#[test]
fn a_deal_shows_up_to_t_posts_nothing() {
    for points in [[1, 2, 2, 1], [1, 1, 2, 2], [2, 1, 2, 1]] {
        for group in [&[] as &[usize], &[1], &[2]] {
            assert!(equal_counts::<3>(&deal(), &points, (ALL, ALL), group, [&[0], &[2]]));
        }
        assert!(!equal_counts::<3>(&deal(), &points, (ALL, ALL), &[1, 2], [&[0], &[2]]));
    }
    let seen = Condition { own: &[1], checks: true, ..ALL };
    assert!(equal_counts::<5>(&deal(), &[1, 4, 2, 2], (seen, ALL), &[1], [&[0], &[3]]));
}

/// "A group of t posts then sees 2t points of a polynomial": with t+1 coefficients these would show
/// it, and its share of the secret.
#[test]
fn polynomials_with_too_few_coefficients() {
    let short = Condition { short: true, ..ALL };
    for group in [[1], [2]] {
        assert!(!equal_counts::<3>(&deal(), &[1, 2, 2, 1], (short, ALL), &group, [&[0], &[2]]));
        // Two equal points are one.
        assert!(equal_counts::<3>(&deal(), &[1, 1, 2, 2], (short, ALL), &group, [&[0], &[2]]));
    }
}

#[test]
fn an_opening_shows_the_number_and_no_more() {
    let steps = [LoadRow(0), LoadRow(1), Deal(0), Deal(1), Message(0), Open(0)];
    let open = with_two_points(plan(2, 1, &[raw(0), raw(1)], &[], &steps));
    let counts =
        |secrets| equal_counts::<3>(&open, &[1, 2, 2, 2], (SEEN_BY_1_WITH_SUM, ALL), &[1], secrets);
    assert!(counts([&[2, 0], &[2, 1]]));
    assert!(!counts([&[2, 0], &[1, 0]]));
}

#[test]
fn products() {
    let multiply = [Step::Masks { a: 0, b: 1, first: 2 }, OpenMasks(2), Multiply(2)];
    let loads = [LoadRow(0), LoadRow(1), LoadTriple(2), Deal(0), Deal(1)];
    let counts = |then: &[Step], secrets| {
        let steps = [&loads[..], &multiply, then].concat();
        let plan = with_two_points(plan(2, 1, &[raw(0), raw(1)], &[2], &steps));
        let condition = (SEEN_BY_1_WITH_SUM, SEEN_BY_1_WITH_SUM);
        equal_counts::<3>(&plan, &[2, 1, 1, 1], condition, &[1], secrets)
    };
    let opened = [Message(4), Open(4)];
    assert!(counts(&[], [&[1, 2], &[2, 2]]));
    assert!(counts(&opened, [&[1, 2], &[2, 1]]));
    assert!(!counts(&opened, [&[1, 2], &[2, 2]]));
}
