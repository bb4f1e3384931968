//! Plans with one raw row.

use super::*;

#[test]
fn nothing_but_the_line_of_the_dealer() {
    let empty = plan(2, 1, &[raw(0)], &[], &[]);
    for group in [&[] as &[usize], &[1], &[2]] {
        assert!(equal_counts::<5>(&empty, &[3, 2], (ALL, ALL), group, [&[1], &[4]]));
    }
}

#[test]
fn a_deal_shows_up_to_t_posts_nothing() {
    let deal = plan(2, 1, &[raw(0)], &[], &[LoadRow(0), Deal(0)]);
    for points in POINTS_5 {
        for group in [&[] as &[usize], &[1], &[2]] {
            assert!(equal_counts::<5>(&deal, &points, (ALL, ALL), group, [&[0], &[3]]));
        }
    }
}

#[test]
fn a_deal_shows_t_plus_1_posts_the_secret() {
    let deal = plan(2, 1, &[raw(0)], &[], &[LoadRow(0), Deal(0)]);
    assert!(!equal_counts::<5>(&deal, &[1, 3], (ALL, ALL), &[1, 2], [&[0], &[3]]));
    assert!(equal_counts::<5>(&deal, &[1, 3], (ALL, ALL), &[1, 2], [&[3], &[3]]));
}

#[test]
fn an_opening_shows_the_number_and_no_more() {
    let steps = [LoadRow(0), Deal(0), Open(0), Message(0), Open(0)];
    let open = plan(2, 1, &[raw(0)], &[], &steps);
    assert!(equal_counts::<5>(&open, &[1, 3], (ALL, ALL), &[1], [&[2], &[2]]));
    for group in [&[] as &[usize], &[1], &[2]] {
        assert!(!equal_counts::<5>(&open, &[1, 3], (ALL, ALL), group, [&[2], &[3]]));
    }
}

#[test]
fn a_message_shows_the_number_though_nobody_opens() {
    let message = plan(2, 1, &[raw(0)], &[], &[LoadRow(0), Deal(0), Message(0)]);
    assert!(!equal_counts::<5>(&message, &[1, 3], (ALL, ALL), &[1], [&[2], &[3]]));
    assert!(equal_counts::<5>(&message, &[1, 3], (ALL, ALL), &[], [&[2], &[2]]));
}

#[test]
fn a_raw_row_is_not_opened_and_shows_the_pad_if_it_were() {
    let refused = [LoadRow(0), Message(0), Open(0), Deal(0)];
    let refused = plan(2, 1, &[raw(0)], &[], &refused);
    assert!(equal_counts::<5>(&refused, &[1, 3], (ALL, ALL), &[1], [&[2], &[3]]));
    let forced = [
        LoadRow(0),
        Overwrite { row: 0, mark: 2 },
        Message(0),
        Overwrite { row: 0, mark: 1 },
        Deal(0),
    ];
    let forced = plan(2, 1, &[raw(0)], &[], &forced);
    for group in [&[1], &[2]] {
        assert!(!equal_counts::<5>(&forced, &[1, 3], (ALL, ALL), group, [&[2], &[3]]));
    }
}

#[test]
fn a_dealer_knows_the_secret() {
    let by = |dealer| Raw { row: 0, pad_of: 0, dealer };
    let deal = |dealer| plan(2, 1, &[by(dealer)], &[], &[LoadRow(0), Deal(0)]);
    assert!(!equal_counts::<5>(&deal(1), &[1, 3], (ALL, ALL), &[1], [&[2], &[3]]));
    assert!(equal_counts::<5>(&deal(1), &[1, 3], (ALL, ALL), &[1], [&[2], &[2]]));
    assert!(equal_counts::<5>(&deal(2), &[1, 3], (ALL, ALL), &[1], [&[2], &[3]]));
}

#[test]
fn three_posts() {
    let deal = plan(3, 1, &[raw(7)], &[], &[LoadRow(7), Deal(7)]);
    assert!(equal_counts::<5>(&deal, &[3, 1, 3], (ALL, ALL), &[2], [&[1], &[4]]));
    let own = Condition { own: &[1, 3], checks: false, sums: &[], short: false };
    assert!(!equal_counts::<5>(&deal, &[3, 1, 3], (own, ALL), &[1, 3], [&[1], &[4]]));
    let steps = [LoadRow(7), Deal(7)];
    let higher = plan(3, 2, &[raw(7)], &[], &steps);
    assert!(equal_counts::<5>(&higher, &[3, 1, 4], (own, ALL), &[1, 3], [&[1], &[4]]));
    let most = Condition { own: &[1, 2], checks: false, sums: &[3], short: false };
    assert!(!equal_counts::<5>(&higher, &[3, 1, 4], (most, ALL), &[1, 2, 3], [&[1], &[4]]));
}

/// Post 3 over the field with 3 elements would hold f(3) = f(0).
#[test]
fn a_field_with_no_more_elements_than_posts_leaks() {
    let deal = plan(3, 1, &[raw(0)], &[], &[LoadRow(0), Deal(0)]);
    assert!(!equal_counts::<3>(&deal, &[1, 2, 1], (ALL, ALL), &[3], [&[1], &[2]]));
    assert!(equal_counts::<3>(&deal, &[1, 2, 1], (ALL, ALL), &[2], [&[1], &[2]]));
}

/// "To put in records only what its sender broadcast": what a post answers to forged blocks, 13 among
/// it, follows the secret though no post sends a message.
#[test]
fn forged_blocks_in_a_record() {
    let seen = Condition { own: &[1], checks: true, sums: &[1, 2, 3], short: false };
    let counts = |forged, secrets| {
        let steps = [LoadRow(0), Deal(0), OpenForged { row: 0, forged }];
        let plan = plan(3, 1, &[raw(0)], &[], &steps);
        equal_counts::<5>(&plan, &[3, 1, 4], (seen, ALL), &[1], secrets)
    };
    let (none, both): (&[_], &[_]) = (&[], &[(1, [1, 1]), (3, [1, 0])]);
    assert!(counts(none, [&[1], &[4]]));
    assert!(!counts(both, [&[1], &[4]]));
    assert!(counts(both, [&[4], &[4]]));
}
