//! Plans with a fee: "a charge opened is the plain sum with the fee".

use super::*;

/// Rows 0 and 1 dealt, and the triple at rows 2 to 4 loaded.
fn charge(steps: &[Step]) -> Plan {
    let loads = [LoadRow(0), LoadRow(1), LoadTriple(2), Deal(0), Deal(1)];
    plan(2, 1, &[raw(0), raw(1)], &[2], &[&loads, steps].concat())
}

fn charge_counts(steps: &[Step], secrets: [&[u32]; 2]) -> bool {
    let condition = (SEEN_BY_1_WITH_SUM, SEEN_BY_1_WITH_SUM);
    equal_counts::<3>(&charge(steps), &[2, 1], condition, &[1], secrets)
}

/// Row 9 is row 0 plus 2.
const WITH_FEE: Step = Step::Linear { dest: 9, a: 0, b: 0, scale: 0, fee: 2 };

/// Row 9 times row 1, opened.
const OPENED: [Step; 4] = [Step::Masks { a: 9, b: 1, first: 2 }, Finish(2), Message(4), Open(4)];

#[test]
fn rides_times_rate_plus_a_fee() {
    let multiply = [Step::Masks { a: 0, b: 1, first: 2 }, Finish(2)];
    let fee = Step::Linear { dest: 9, a: 4, b: 0, scale: 1, fee: 1 };
    let counts =
        |then: &[Step], secrets| charge_counts(&[&multiply[..], &[fee], then].concat(), secrets);
    // ab + a + 1, where 1·1 + 1 = 2·0 + 2, and 1·0 + 1 differs.
    let opened = [Message(9), Open(9)];
    assert!(counts(&opened, [&[1, 1], &[2, 0]]));
    assert!(!counts(&opened, [&[1, 1], &[1, 0]]));
    assert!(counts(&[Open(9)], [&[1, 1], &[1, 0]]));
}

/// The fee is a part of the number: 1 + 2 is 0, and 0 times row 1 shows nothing of it.
#[test]
fn a_factor_with_a_fee() {
    let steps = [&[WITH_FEE], &OPENED[..]].concat();
    assert!(charge_counts(&steps, [&[1, 1], &[1, 2]]));
    assert!(!charge_counts(&steps, [&[2, 1], &[2, 2]]));
}

/// A fee in the polynomial's constant too counts nothing: 1 times row 1 shows it.
#[test]
fn a_fee_in_the_constant_too() {
    let wrong = FeeWithConstant { dest: 9, a: 0, fee: 2 };
    let steps = [&[wrong], &OPENED[..]].concat();
    assert!(!charge_counts(&steps, [&[1, 1], &[1, 2]]));
    assert!(charge_counts(&steps, [&[0, 1], &[0, 2]]));
}
