//! Plans in which a finish is two calls.

use super::*;

/// Rows 0 and 1 dealt, and the triple at rows 2 to 4 masked for their product.
fn masked(steps: &[Step]) -> Plan {
    let loads = [LoadRow(0), LoadRow(1), LoadTriple(2), Deal(0), Deal(1)];
    let masks = [Step::Masks { a: 0, b: 1, first: 2 }];
    plan(2, 1, &[raw(0), raw(1)], &[2], &[&loads[..], &masks, steps].concat())
}

fn counts(steps: &[Step], secrets: [&[u32]; 2]) -> bool {
    let condition = (SEEN_BY_1_WITH_SUM, SEEN_BY_1_WITH_SUM);
    equal_counts::<3>(&masked(steps), &[2, 1], condition, &[1], secrets)
}

const OPENED: [Step; 2] = [Message(4), Open(4)];

#[test]
fn numbers_that_are_remembered_show_nothing() {
    assert!(counts(&[OpenMasks(2)], [&[1, 2], &[0, 0]]));
    assert!(counts(&[Multiply(2), OpenMasks(2), OpenMasks(2), Open(4)], [&[1, 2], &[2, 2]]));
    assert!(counts(&[OpenMasks(2), Multiply(2), Multiply(2)], [&[1, 2], &[2, 2]]));
}

#[test]
fn a_product_by_two_calls_shows_itself_only() {
    // Other calls may come between the two.
    let sum = Step::Linear { dest: 9, a: 0, b: 1, scale: 2, fee: 1 };
    let steps = [&[OpenMasks(2), sum, Multiply(2)], &OPENED[..]].concat();
    assert!(counts(&steps, [&[1, 2], &[2, 1]]));
    assert!(counts(&steps, [&[0, 1], &[0, 2]]));
    assert!(!counts(&steps, [&[1, 2], &[2, 2]]));
}

/// With another y the third row is (l + y) b, and shows b where a b is 0.
#[test]
fn a_number_that_was_not_opened() {
    let wrong = [&[OpenMasks(2), Remember { first: 2, y: 1 }, Multiply(2)], &OPENED[..]].concat();
    assert!(!counts(&wrong, [&[0, 1], &[0, 2]]));
    assert!(counts(&wrong, [&[0, 1], &[0, 1]]));
}

/// A triple whose masks were opened is not masked again.
#[test]
fn masks_after_the_first_call() {
    let again = Step::Masks { a: 1, b: 1, first: 2 };
    assert!(counts(&[OpenMasks(2), again, Multiply(2)], [&[1, 2], &[2, 2]]));
    let forced = [OpenMasks(2), Overwrite { row: 2, mark: 3 }, again];
    assert!(!counts(&forced, [&[1, 2], &[2, 2]]));
}
