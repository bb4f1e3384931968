//! Request (v): each refusal of the two calls at its boundary, and their order.

mod common;

use common::*;
use reference::random::{Call, Damage, State};
use reference::{Session, Term, MODULUS, NO_ROW};

fn one(coefficient: u32, row: usize) -> Term {
    Term { coefficient, row, second: NO_ROW, first: 0 }
}

fn product(coefficient: u32, row: usize, second: usize, first: usize) -> Term {
    Term { coefficient, row, second, first }
}

fn masks(terms: &[Term], out: usize) -> Call {
    Call::RelationMasks { terms: terms.to_vec(), out }
}

fn finish(terms: &[Term], records: &[u32], dest: usize) -> Call {
    Call::RelationFinish { terms: terms.to_vec(), records: records.to_vec(), dest }
}

/// Post 1 of the furnished station, in which row 0 is raw, rows 1, 2 and 9 are held, the triple at
/// row 3 is unused and the masks of that at row 6 were sent for rows 1 and 2; and their records.
fn post_1() -> (State, Vec<u32>) {
    let (station, masks) = furnished();
    let records = masks.map(|masks| record(station.shape, &masks)).concat();
    (station.posts[0].clone(), records)
}

fn with(state: &State, damage: &[Damage]) -> State {
    let mut state = state.clone();
    damage.iter().for_each(|damage| damage.apply(&mut state));
    state
}

/// A valid call of each kind on the furnished post 1.
fn valid_calls(records: &[u32]) -> [Call; 2] {
    let (unused, masked) = (product(5, 1, 9, 3), product(5, 1, 2, 6));
    [masks(&[one(7, 2), unused], 4), finish(&[one(7, 9), masked], records, 95)]
}

#[test]
fn the_session_is_checked_first() {
    let (state, records) = post_1();
    let damages = [
        (Damage::Length(769), 5),
        (Damage::Length(767), 5),
        (Damage::Point(0), 4),
        (Damage::Post(4), 3),
        (Damage::Threshold(3), 2),
        (Damage::Posts(256), 1),
    ];
    let wrong = [masks(&[], 0), masks(&[one(MODULUS, 96)], 0), finish(&[], &[], 96)];
    for call in valid_calls(&records) {
        assert_taken(&state, call.clone());
        let mut state = state.clone();
        for (damage, number) in damages {
            damage.apply(&mut state);
            assert_refused(&state, call.clone(), number);
            wrong.iter().for_each(|wrong| assert_refused(&state, wrong.clone(), number));
        }
    }
    let blank = State::new(Session::BLANK, vec![]);
    valid_calls(&records).into_iter().for_each(|call| assert_refused(&blank, call, 1));
}

/// "The lengths count product terms, however many terms there are": 5 before 14.
#[test]
fn lengths_follow_the_product_terms() {
    let (state, _) = post_1();
    let bad = product(MODULUS, 96, 96, 94);
    for (products, out) in [(0, 1), (1, 0), (1, 3), (1, 5), (1, 8), (2, 4), (33, 128), (33, 0)] {
        assert_refused(&state, masks(&vec![bad; products], out), 5);
    }
    for (products, length) in
        [(0, 1), (0, 18), (1, 0), (1, 9), (1, 17), (1, 19), (2, 18), (33, 576)]
    {
        let records = vec![MODULUS; length];
        assert_refused(&state, finish(&vec![bad; products], &records, 96), 5);
    }
    // A second row of 255 makes a term of one row, 254 and 256 don't.
    for (second, out) in [(255, 4), (254, 0), (256, 0), (96, 0), (0, 0)] {
        assert_refused(&state, masks(&[product(1, 1, second, 3)], out), 5);
    }
}

/// "14, after 5, a list of no terms or of more than 32."
#[test]
fn no_terms_or_more_than_32() {
    let (state, _) = post_1();
    let bad = one(MODULUS, 96);
    assert_refused(&state, masks(&[], 0), 14);
    assert_refused(&state, finish(&[], &[], 96), 14);
    for count in [33, 34, 100] {
        assert_refused(&state, masks(&vec![bad; count], 0), 14);
        assert_refused(&state, finish(&vec![bad; count], &[], 96), 14);
        let products = vec![product(MODULUS, 96, 96, 94); count];
        assert_refused(&state, masks(&products, 4 * count), 14);
        assert_refused(&state, finish(&products, &vec![MODULUS; 18 * count], 96), 14);
    }
    assert_taken(&state, masks(&[one(1, 1); 32], 0));
    assert_taken(&state, finish(&[one(1, 1); 32], &[], 95));
    assert_taken(&state, finish(&[one(1, 1)], &[], 95));
}

/// "6 is checked over all terms before 7, the sum's row last in each."
#[test]
fn rows_above_the_last_get_6_before_7() {
    let (state, records) = post_1();
    let not_held = one(MODULUS, 0);
    for row in [96, 97, 254, 255, 256, usize::MAX] {
        assert_refused(&state, masks(&[not_held, one(1, row)], 0), 6);
        assert_refused(&state, finish(&[not_held, one(1, row)], &[], 0), 6);
        assert_refused(&state, finish(&[not_held], &[], row), 6);
        for term in [product(1, row, 1, 3), product(1, 1, row, 3), product(1, 1, 1, row)] {
            if term.second != NO_ROW {
                assert_refused(&state, masks(&[not_held, term], 4), 6);
                assert_refused(&state, finish(&[not_held, term], &records, 0), 6);
            }
        }
    }
    for first in [94, 95] {
        assert_refused(&state, masks(&[not_held, product(1, 1, 1, first)], 4), 6);
        assert_refused(&state, finish(&[not_held, product(1, 1, 1, first)], &records, 0), 6);
    }
    // A triple is not looked at when there is no second row.
    let unseen = Term { first: usize::MAX, ..one(1, 1) };
    assert_taken(&state, masks(&[unseen], 0));
    assert_taken(&state, finish(&[unseen], &[], 95));
}

#[test]
fn rows_not_held_and_wrong_triples_get_7_before_8() {
    let (state, records) = post_1();
    let bad = MODULUS;
    for row in [0, 3, 4, 6, 50] {
        for terms in [[one(bad, 1), one(bad, row)], [one(bad, row), one(bad, 1)]] {
            assert_refused(&state, masks(&terms, 0), 7);
            assert_refused(&state, finish(&terms, &[], 95), 7);
        }
        for (a, b) in [(row, 1), (1, row)] {
            assert_refused(&state, masks(&[product(bad, a, b, 3)], 4), 7);
            assert_refused(&state, finish(&[product(bad, a, b, 6)], &records, 95), 7);
        }
    }
    for first in [0, 1, 2, 4, 5, 6, 7, 9, 50, 93] {
        assert_refused(&state, masks(&[product(bad, 1, 2, first)], 4), 7);
    }
    for first in [0, 1, 2, 3, 4, 7, 9, 50, 93] {
        assert_refused(&state, finish(&[product(bad, 1, 2, first)], &records, 95), 7);
    }
    for dest in [0, 1, 3, 4, 6, 8, 9] {
        assert_refused(&state, finish(&[one(bad, 1)], &[], dest), 7);
    }
}

/// "A triple named twice gets 7."
#[test]
fn a_triple_named_twice() {
    let (state, records) = post_1();
    let (unused, masked) = (product(1, 1, 2, 3), product(1, 1, 2, 6));
    assert_refused(&state, masks(&[unused, unused], 8), 7);
    assert_refused(&state, masks(&[unused, one(1, 1), product(MODULUS, 9, 9, 3)], 8), 7);
    let twice = [records.clone(), records.clone()].concat();
    assert_refused(&state, finish(&[masked, masked], &twice, 95), 7);
    assert_refused(&state, finish(&[masked, one(1, 1), masked], &twice, 95), 7);
    // Where it isn't looked at, it isn't named.
    assert_taken(&state, masks(&[unused, Term { first: 3, ..one(1, 1) }], 4));
    assert_taken(&state, finish(&[masked, Term { first: 6, ..one(1, 1) }], &records, 95));
}

/// "Or one that at the finish doesn't remember the term's rows in order"; for held rows too.
#[test]
fn a_triple_that_remembers_other_rows() {
    let (state, records) = post_1();
    for (a, b) in [(2, 1), (1, 1), (2, 2), (1, 9), (9, 2)] {
        assert_refused(&state, finish(&[product(MODULUS, a, b, 6)], &records, 95), 7);
    }
}

/// The rows of which every number must be an element.
fn assert_reads(state: &State, call: &Call, read: &[usize]) {
    for row in 0..96 {
        for place in [row * 8, row * 8 + 4, row * 8 + 7] {
            let wrong = with(state, &[Damage::Number { place, number: MODULUS }]);
            if read.contains(&row) {
                assert_refused(&wrong, call.clone(), 8);
            } else {
                assert_taken(&wrong, call.clone());
            }
        }
    }
}

/// Masks read the rows of product terms, l and l'; a finish every row of every term, and l''.
#[test]
fn the_reach_of_8() {
    let (state, records) = post_1();
    let [mask_call, finish_call] = valid_calls(&records);
    assert_reads(&state, &mask_call, &[1, 9, 3, 4]);
    assert_reads(&state, &finish_call, &[9, 1, 2, 6, 7, 8]);
    for coefficient in [MODULUS, u32::MAX] {
        assert_refused(&state, masks(&[one(1, 1), one(coefficient, 2)], 0), 8);
        assert_refused(&state, masks(&[product(coefficient, 1, 2, 3)], 4), 8);
        assert_refused(&state, finish(&[one(coefficient, 1), one(1, 1)], &[], 95), 8);
        assert_refused(&state, finish(&[product(coefficient, 1, 2, 6)], &records, 95), 8);
    }
    assert_taken(&state, masks(&[one(MODULUS - 1, 1), product(0, 1, 2, 3)], 4));
}
