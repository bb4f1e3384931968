//! Plans with several dealers, whose lines are placed and taken in turn.

use super::*;
use Step::{Place, PlaceFixed, Turn};

/// Row 0 loaded, and then dealt by these steps.
fn counts(steps: &[Step], group: &[usize], secrets: [&[u32]; 2]) -> bool {
    let plan = plan(2, 1, &[raw(0)], &[], &[&[LoadRow(0)], steps].concat());
    equal_counts::<5>(&plan, &[1, 3], (ALL, ALL), group, secrets)
}

const DIFFERENT: [&[u32]; 2] = [&[2], &[3]];

/// "A turn that takes a line is a deal of the line's row."
#[test]
fn a_turn_is_a_deal() {
    let dealt = [Place { dealer: 3, row: 0 }, Turn];
    for group in [&[] as &[usize], &[1], &[2]] {
        assert!(counts(&dealt, group, DIFFERENT));
    }
    assert!(!counts(&dealt, &[1, 2], DIFFERENT));
    let opened = [&dealt[..], &[Message(0), Open(0)]].concat();
    assert!(!counts(&opened, &[1], DIFFERENT));
    assert!(counts(&opened, &[1], [&[2], &[2]]));
}

/// Lines that are refused once taken, or that are still waiting, deal nothing: no message is made.
#[test]
fn lines_that_deal_nothing() {
    let opening = [Message(0), Open(0)];
    let placed = Place { dealer: 8, row: 0 };
    let fixed = |dealer, line| PlaceFixed { dealer, line };
    let waits = [placed];
    let behind = [placed, fixed(2, "D,9,1\n"), Turn];
    let harmed = [fixed(2, "O,0,1,1,1\n"), fixed(3, "D,0,5\n"), fixed(9, "x"), Turn, Turn, Turn];
    for steps in [&waits[..], &behind, &harmed] {
        assert!(counts(&[steps, &opening].concat(), &[1], DIFFERENT));
    }
    // The turn after the one that takes dealer 2's line takes dealer 8's.
    let served = [&behind[..], &[Turn], &opening].concat();
    assert!(!counts(&served, &[1], DIFFERENT));
    assert!(counts(&served, &[1], [&[4], &[4]]));
    // Placed twice: the second turn is refused with 7.
    let twice = [placed, Place { dealer: 1, row: 0 }, Turn, Turn, Turn];
    assert!(counts(&twice, &[2], DIFFERENT));
}

/// A line taken before its row is loaded is gone.
#[test]
fn a_line_taken_too_early() {
    let steps = [Place { dealer: 1, row: 0 }, Turn, LoadRow(0), Turn, Message(0), Open(0)];
    let plan = plan(2, 1, &[raw(0)], &[], &steps);
    assert!(equal_counts::<5>(&plan, &[1, 3], (ALL, ALL), &[1], DIFFERENT));
}

/// Two rows, whose lines wait at the same time; row 0 alone is opened.
#[test]
fn two_dealers() {
    let loads = [LoadRow(0), LoadRow(1), Place { dealer: 7, row: 1 }, Place { dealer: 2, row: 0 }];
    let counts = |then: &[Step], secrets| {
        let plan = plan(2, 1, &[raw(0), raw(1)], &[], &[&loads, then].concat());
        equal_counts::<5>(&plan, &[2, 1], (SEEN_BY_1, SEEN_BY_1), &[1], secrets)
    };
    let opened = [Turn, PlaceFixed { dealer: 3, line: "D\n" }, Turn, Turn, Message(0), Open(0)];
    assert!(counts(&opened, [&[2, 0], &[2, 4]]));
    assert!(!counts(&opened, [&[2, 0], &[1, 0]]));
    // After one turn row 1 isn't dealt, and its message not made.
    assert!(counts(&[Turn, Message(1), Open(1)], [&[2, 0], &[1, 3]]));
    assert!(!counts(&[Turn, Turn, Message(1), Open(1)], [&[2, 0], &[1, 3]]));
}

/// Two rows dealt with one pad by turns: the difference of their numbers c shows that of the secrets.
#[test]
fn one_pad_for_two_rows() {
    let steps = [LoadRow(0), LoadRow(1), Place { dealer: 1, row: 0 }, Place { dealer: 2, row: 1 }];
    let steps = [&steps[..], &[Turn, Turn]].concat();
    let counts = |pad_of, secrets| {
        let raws = [raw(0), Raw { row: 1, pad_of, dealer: 0 }];
        let plan = plan(2, 1, &raws, &[], &steps);
        equal_counts::<5>(&plan, &[2, 1], (SEEN_BY_1, SEEN_BY_1), &[1], secrets)
    };
    assert!(counts(1, [&[2, 0], &[1, 3]]));
    assert!(!counts(0, [&[2, 0], &[1, 3]]));
}

/// Products of rows that were dealt by turns.
#[test]
fn products_of_rows_dealt_in_turn() {
    let loads = [LoadRow(0), LoadRow(1), LoadTriple(2), Place { dealer: 4, row: 1 }];
    let multiply = [Step::Masks { a: 0, b: 1, first: 2 }, Finish(2), Message(4), Open(4)];
    let counts = |line, secrets| {
        let steps = [&loads[..], &[line, Turn, Turn], &multiply].concat();
        let plan = plan(2, 1, &[raw(0), raw(1)], &[2], &steps);
        let condition = (SEEN_BY_1_WITH_SUM, SEEN_BY_1_WITH_SUM);
        equal_counts::<3>(&plan, &[2, 1], condition, &[1], secrets)
    };
    let line = Place { dealer: 5, row: 0 };
    assert!(counts(line, [&[1, 2], &[2, 1]]));
    assert!(!counts(line, [&[1, 2], &[2, 2]]));
    // A rule broken: row 0 is dealt with a number that its dealer didn't broadcast.
    let other = PlaceFixed { dealer: 5, line: "D,0,0\n" };
    assert!(!counts(other, [&[1, 2], &[2, 1]]));
}
