//! Plans with rows that not every post may call for.

use super::*;

/// Row 0 loaded, with this line, and dealt.
fn dealt(line: &'static str, steps: &[Step]) -> Plan {
    let deal = [LoadRow(0), Callers(line), Deal(0)];
    plan(2, 1, &[raw(0)], &[], &[&deal, steps].concat())
}

/// "A row whose set bars each caller adds nothing to the opened numbers by which lists of secrets must
/// agree." Post 1 calls.
#[test]
fn a_row_that_bars_the_caller() {
    let counts = |line, steps: &[Step], secrets| {
        equal_counts::<5>(&dealt(line, steps), &[1, 3], (ALL, ALL), &[1], secrets)
    };
    let opening = [Message(0), Open(0)];
    for line in ["A,0,\n", "A,0,2\n"] {
        assert!(counts(line, &opening, [&[2], &[3]]));
    }
    // Post 1 may call; a line that is refused changes nothing.
    for line in ["A,0,1\n", "A,0,1,2\n", "A,0,3\n", "A,1,\n"] {
        assert!(!counts(line, &opening, [&[2], &[3]]));
    }
    assert!(counts("A,0,1\n", &opening, [&[2], &[2]]));
    // A message for which nobody may call, and which is made all the same.
    assert!(!counts("A,0,\n", &[Unbar(0), Message(0)], [&[2], &[3]]));
}

/// Rows 0 and 1 dealt, of which nobody may call for row 0, and the triple at rows 2 to 4.
fn counts(steps: &[Step], secrets: [&[u32]; 2]) -> bool {
    let loads = [LoadRow(0), LoadRow(1), LoadTriple(2), Callers("A,0,\n"), Deal(0), Deal(1)];
    let plan = plan(2, 1, &[raw(0), raw(1)], &[2], &[&loads, steps].concat());
    let condition = (SEEN_BY_1_WITH_SUM, SEEN_BY_1_WITH_SUM);
    equal_counts::<3>(&plan, &[2, 1], condition, &[1], secrets)
}

/// "A row made from others has the posts that all of them share."
#[test]
fn sums_and_products_of_a_row_that_bars_everybody() {
    let multiply = [Step::Masks { a: 0, b: 1, first: 2 }, Finish(2)];
    let sum = Step::Linear { dest: 9, a: 1, b: 0, scale: 1, fee: 0 };
    let secrets: [&[u32]; 2] = [&[1, 2], &[2, 2]];
    assert!(counts(&[&multiply[..], &[Message(4), Open(4)]].concat(), secrets));
    assert!(counts(&[sum, Message(9), Open(9)], secrets));
    // Row 1 may be opened, and what is made from it alone.
    assert!(counts(&[&multiply[..], &[Message(1), Open(1)]].concat(), secrets));
    assert!(!counts(&[Message(1), Open(1)], [&[1, 2], &[1, 1]]));
    // The product that forgot its factors' posts.
    assert!(!counts(&[&multiply[..], &[Unbar(4), Message(4)]].concat(), secrets));
    assert!(!counts(&[sum, Unbar(9), Message(9)], secrets));
}
