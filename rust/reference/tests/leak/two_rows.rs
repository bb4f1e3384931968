//! Plans with two raw rows.

use super::*;

const ROWS: [Step; 4] = [LoadRow(0), LoadRow(1), Deal(0), Deal(1)];

fn two(steps: &[Step]) -> Plan {
    plan(2, 1, &[raw(0), raw(1)], &[], &[&ROWS, steps].concat())
}

/// All draws of two rows.
#[test]
fn an_opening_shows_nothing_of_the_other_row() {
    let open = two(&[Message(0), Open(0)]);
    assert!(equal_counts::<3>(&open, &[1, 2], (ALL, ALL), &[1], [&[2, 0], &[2, 1]]));
}

#[test]
fn an_opening_of_the_row_that_differs_shows() {
    let open = two(&[Message(1)]);
    assert!(!equal_counts::<3>(&open, &[1, 2], (SEEN_BY_1, ALL), &[1], [&[2, 0], &[2, 1]]));
}

#[test]
fn a_sum_opened_shows_the_sum_only() {
    let sum = |scale| {
        let linear = Step::Linear { dest: 95, a: 0, b: 1, scale, fee: 0 };
        two(&[linear, Message(95), Open(95)])
    };
    let counts = |plan: &Plan, secrets: [&[u32]; 2]| {
        equal_counts::<5>(plan, &[4, 2], (SEEN_BY_1, ALL), &[1], secrets)
    };
    assert!(counts(&sum(1), [&[1, 2], &[3, 0]]));
    assert!(!counts(&sum(2), [&[1, 2], &[3, 0]]));
    assert!(counts(&sum(2), [&[1, 2], &[3, 1]]));
}

#[test]
fn a_sum_not_opened_shows_nothing() {
    let linear = Step::Linear { dest: 2, a: 1, b: 1, scale: 3, fee: 4 };
    let sum = two(&[linear, Open(2)]);
    let secrets: [&[u32]; 2] = [&[1, 2], &[0, 4]];
    assert!(equal_counts::<5>(&sum, &[4, 2], (SEEN_BY_1, ALL), &[1], secrets));
}

#[test]
fn a_dealer_learns_nothing_of_the_others_row() {
    let by = |row, dealer| Raw { row, pad_of: row, dealer };
    let rows = [by(0, 1), by(1, 2)];
    let plan = plan(2, 1, &rows, &[], &ROWS);
    let counts = |secrets| equal_counts::<5>(&plan, &[4, 2], (SEEN_BY_1, ALL), &[1], secrets);
    assert!(counts([&[1, 2], &[1, 4]]));
    assert!(!counts([&[1, 2], &[0, 2]]));
}

/// "Each at most once": one pad for two secrets shows their difference.
#[test]
fn one_drawn_row_for_two_secrets() {
    let again = Raw { row: 1, pad_of: 0, dealer: 0 };
    let steps = [LoadRow(0), LoadAgain { of: 0, into: 1 }, Deal(0), Deal(1)];
    let plan = plan(2, 1, &[raw(0), again], &[], &steps);
    let counts = |secrets| equal_counts::<3>(&plan, &[1, 2], (SEEN_BY_1, ALL), &[1], secrets);
    assert!(!counts([&[1, 2], &[1, 1]]));
    assert!(counts([&[1, 2], &[0, 1]]));
}
