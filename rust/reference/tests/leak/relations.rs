//! Plans with a relation: "an opened relation is one more opened number for the secrecy of the rest".

use reference::{Term, NO_ROW};

use super::*;

/// Rows 0 and 1 dealt, and the triple at rows 2 to 4 loaded.
fn related(steps: &[Step]) -> Plan {
    let loads = [LoadRow(0), LoadRow(1), LoadTriple(2), Deal(0), Deal(1)];
    plan(2, 1, &[raw(0), raw(1)], &[2], &[&loads, steps].concat())
}

fn relation_counts(steps: &[Step], secrets: [&[u32]; 2]) -> bool {
    let condition = (SEEN_BY_1_WITH_SUM, SEEN_BY_1_WITH_SUM);
    equal_counts::<3>(&related(steps), &[2, 1], condition, &[1], secrets)
}

const fn one(coefficient: u32, row: usize) -> Term {
    Term { coefficient, row, second: NO_ROW, first: 0 }
}

const fn product(coefficient: u32, row: usize, second: usize, first: usize) -> Term {
    Term { coefficient, row, second, first }
}

/// 2ab + a.
const TERMS: &[Term] = &[product(2, 0, 1, 2), one(1, 0)];

const RELATION: [Step; 2] = [RelationMasks(TERMS), RelationFinish { terms: TERMS, dest: 9 }];

#[test]
fn a_relation_not_opened_shows_nothing() {
    assert!(relation_counts(&RELATION, [&[1, 2], &[2, 2]]));
    assert!(relation_counts(&[RELATION[1], RELATION[0], Open(9)], [&[1, 2], &[0, 0]]));
}

#[test]
fn a_relation_opened_shows_its_sum_only() {
    let opened = [&RELATION[..], &[Message(9), Open(9)]].concat();
    // 2·1·1 + 1 = 0 = 2·2·1 + 2, and 2·1·2 + 1 = 2.
    assert!(relation_counts(&opened, [&[1, 1], &[2, 1]]));
    assert!(relation_counts(&opened, [&[1, 1], &[0, 2]]));
    assert!(!relation_counts(&opened, [&[1, 1], &[1, 2]]));
}

/// "The plain book has the products in the third rows too."
#[test]
fn the_product_of_a_term_opened() {
    let opened = [&RELATION[..], &[Message(4), Open(4)]].concat();
    assert!(relation_counts(&opened, [&[1, 2], &[2, 1]]));
    assert!(!relation_counts(&opened, [&[1, 1], &[2, 1]]));
}

/// A sum of rows needs no masks.
#[test]
fn a_relation_without_products() {
    const SUM: &[Term] = &[one(2, 0), one(2, 1)];
    let steps = [RelationMasks(SUM), RelationFinish { terms: SUM, dest: 9 }, Message(9), Open(9)];
    assert!(relation_counts(&steps, [&[1, 2], &[2, 1]]));
    assert!(!relation_counts(&steps, [&[1, 2], &[2, 2]]));
}

/// "Each product term uses an unused triple of its own": one triple for two terms shows the
/// difference of their factors.
#[test]
fn one_triple_for_two_terms() {
    const LEFT: &[Term] = &[product(1, 0, 0, 2)];
    const RIGHT: &[Term] = &[product(1, 1, 1, 2)];
    const BOTH: &[Term] = &[product(1, 0, 0, 2), product(1, 1, 1, 2)];
    let forced = [RelationMasks(LEFT), Overwrite { row: 2, mark: 3 }, RelationMasks(RIGHT)];
    assert!(!relation_counts(&forced, [&[1, 2], &[1, 1]]));
    assert!(relation_counts(&forced, [&[1, 2], &[0, 1]]));
    // The session refuses it, in one call and in two.
    assert!(relation_counts(&[RelationMasks(BOTH)], [&[1, 2], &[1, 1]]));
    assert!(relation_counts(&[RelationMasks(LEFT), RelationMasks(RIGHT)], [&[1, 2], &[1, 1]]));
}
