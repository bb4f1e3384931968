//! Request (v): relations, what they come to, and their refusals in order.

mod common;

use common::*;
use reference::random::{unnoticed, Call, Damage, SharedRow, State};
use reference::{Term, MODULUS, NO_ROW};

/// A term of one row; its triple is not looked at.
fn one(coefficient: u32, row: usize) -> Term {
    Term { coefficient, row, second: NO_ROW, first: usize::MAX }
}

fn product(coefficient: u32, row: usize, second: usize, first: usize) -> Term {
    Term { coefficient, row, second, first }
}

/// Rows 0 to 3 hold 12 rides, a rate of 35, a fee of 420 and 5; row 4 is raw. Triples stand at rows
/// 10, 13 and 16, with different polynomials.
fn furnished() -> Station {
    let mut station = Station::hand();
    for (row, secret) in [(0, 12), (1, 35), (2, 420), (3, 5)] {
        station.share(row, &other_row(row as u32), secret);
    }
    station.load(4, &other_row(4));
    for (first, l, l2) in [(10, 2, 5), (13, 100, MODULUS - 1), (16, 0, 7)] {
        let product = (u64::from(l) * u64::from(l2) % u64::from(MODULUS)) as u32;
        let rows = [(l, 0), (l2, 1), (product, 2)];
        let shared = |(number, k)| SharedRow { f: vec![number, 3], ..other_row(first as u32 + k) };
        station.load_triple(first, &rows.map(shared));
    }
    station
}

fn other_row(k: u32) -> SharedRow {
    SharedRow { f: vec![7 + k, 4], v: vec![vec![1 + k, 2], vec![3, 1 + 2 * k], vec![5 + k, 6 + k]] }
}

/// Every post's masks, and the list of records that they fill: for each product term the record of
/// a − l, then that of b − l'.
fn masks(station: &mut Station, terms: &[Term]) -> Vec<u32> {
    let products = terms.iter().filter(|term| term.second != NO_ROW).count();
    let out = station.shape.masks() * products;
    let outcomes = station.each(|_| Call::RelationMasks { terms: terms.to_vec(), out });
    let part = |index: usize| {
        let half = station.shape.coefficients();
        let messages: Vec<Message> =
            outcomes.iter().map(|o| Some(o.out[index * half..][..half].to_vec())).collect();
        record(station.shape, &messages)
    };
    (0..2 * products).flat_map(part).collect()
}

/// What all posts open for a relation.
fn relation(terms: &[Term]) -> Vec<u32> {
    let mut station = furnished();
    let records = masks(&mut station, terms);
    let finish = Call::RelationFinish { terms: terms.to_vec(), records, dest: 95 };
    station.each(|_| finish.clone());
    station.open(95)
}

const MINUS: u32 = MODULUS - 1;

/// "A firm wants to show that its shared fee is its rides × its rate."
#[test]
fn a_relation_opens_to_0_exactly_when_it_holds() {
    assert_eq!(relation(&[product(1, 0, 1, 10), one(MINUS, 2)]), [0; 3]);
    assert_eq!(relation(&[one(MINUS, 2), product(1, 0, 1, 13)]), [0; 3]);
    assert_eq!(relation(&[product(1, 0, 0, 10), one(MINUS, 2)]), [MODULUS - 420 + 144; 3]);
    // 420 − 7 · 12 · 5: as many products as there are triples, in any order of rows.
    let terms =
        [product(2, 3, 0, 16), one(1, 2), product(MINUS - 8, 0, 3, 10), product(0, 1, 1, 13)];
    assert_eq!(relation(&terms), [0; 3]);
}

#[test]
fn a_relation_without_products_is_a_sum() {
    assert_eq!(relation(&[one(35, 0), one(MINUS, 2)]), [0; 3]);
    assert_eq!(relation(&[one(0, 0)]), [0; 3]);
    assert_eq!(relation(&[one(1, 0)]), [12; 3]);
    assert_eq!(relation(&[one(1, 0); 32]), [384; 3]);
    let mut station = furnished();
    let before = station.posts.clone();
    assert_eq!(masks(&mut station, &[one(35, 0), one(MINUS, 2)]), []);
    assert!(station.posts == before);
}

/// A relation does what single calls do: the same masks, products in the third rows, and a sum.
#[test]
fn a_relation_is_masks_finishes_and_sums() {
    let terms = [product(3, 0, 1, 13), one(4, 2), product(MINUS, 3, 0, 10)];
    let (mut whole, mut single) = (furnished(), furnished());
    let records = masks(&mut whole, &terms);
    for (first, a, b, part) in [(13, 0, 1, 0), (10, 3, 0, 1)] {
        let [left, right] = single.masks(a, b, first).map(|masks| record(single.shape, &masks));
        assert_eq!(records[part * 18..][..18], [left, right].concat());
    }
    let finish = Call::RelationFinish { terms: terms.to_vec(), records: records.clone(), dest: 40 };
    whole.each(|_| finish.clone());
    for (first, part) in [(13, 0), (10, 1)] {
        single.finish(first, &[0, 9].map(|half| records[part * 18 + half..][..9].to_vec()));
    }
    let sum = |dest, a, b, scale| Call::Linear { dest, a, b, scale, fee: 0 };
    single.each(|_| sum(41, 15, 15, 2));
    single.each(|_| sum(42, 41, 2, 4));
    single.each(|_| sum(40, 42, 12, MINUS));
    for (whole, single) in whole.posts.iter().zip(&mut single.posts) {
        single.session.marks[41..43].fill(0);
        single.rows[41 * 8..43 * 8].fill(0);
        assert!(whole == single);
        assert_eq!(whole.session.marks[10..16], [6, 6, 2, 6, 6, 2]);
        // y = 5 − 2 and y' = 35 − (−1).
        assert_eq!((whole.session.y[10], whole.session.y2[13]), (3, 36));
    }
}

/// "Marks and remembered rows alone decide": masks of one call, the finish of the other.
#[test]
fn single_calls_and_relations_may_follow_each_other() {
    let mut station = furnished();
    let terms = [product(1, 0, 1, 10)];
    let records = station.masks(0, 1, 10).map(|masks| record(station.shape, &masks)).concat();
    let finish = Call::RelationFinish { terms: terms.to_vec(), records, dest: 20 };
    station.each(|_| finish.clone());
    assert_eq!(station.open(20), [420; 3]);
    let records = masks(&mut station, &[product(5, 3, 3, 13)]);
    station.finish(13, &[records[..9].to_vec(), records[9..].to_vec()]);
    assert_eq!(station.open(15), [25; 3]);
}

/// A product is a factor once it is written, and not before.
#[test]
fn a_third_row_of_another_term_is_not_held_yet() {
    let mut station = furnished();
    let terms = [product(1, 0, 1, 10), product(1, 12, 1, 13)];
    let call = Call::RelationMasks { terms: terms.to_vec(), out: 8 };
    assert_refused(&station.posts[0], call, 7);
    station.multiply(0, 1, 10);
    let records = masks(&mut station, &terms[1..]);
    let finish = Call::RelationFinish { terms: terms[1..].to_vec(), records, dest: 20 };
    station.each(|_| finish.clone());
    assert_eq!(station.open(20), [420 * 35; 3]);
}

/// Post 1 with a relation of two products that was masked, and the call that finishes it.
fn ready() -> (State, Vec<Term>, Vec<u32>) {
    let mut station = furnished();
    let terms = vec![product(3, 0, 1, 13), one(4, 2), product(MINUS, 3, 0, 10)];
    let records = masks(&mut station, &terms);
    (station.posts[0].clone(), terms, records)
}

fn finish(terms: &[Term], records: &[u32], dest: usize) -> Call {
    Call::RelationFinish { terms: terms.to_vec(), records: records.to_vec(), dest }
}

#[test]
fn nine_of_either_record_then_13_of_either_and_nothing_is_written() {
    let (state, terms, records) = ready();
    assert_taken(&state, finish(&terms, &records, 95));
    let short = |part: usize, records: &[u32]| {
        let mut records = records.to_vec();
        (records[part * 9 + 3], records[part * 9 + 6]) = (0, 0);
        records
    };
    let lie = |part: usize, records: &[u32]| {
        let mut records = records.to_vec();
        let block = &mut records[part * 9 + 7..][..2];
        let forged = unnoticed(block, 0, 1, &HAND_POINTS[..1]);
        block.copy_from_slice(&forged);
        records
    };
    for part in 0..4 {
        assert_refused(&state, finish(&terms, &short(part, &records), 95), 9);
        assert_refused(&state, finish(&terms, &lie(part, &records), 95), 13);
        for other in (0..4).filter(|&other| other != part) {
            assert_refused(&state, finish(&terms, &short(other, &lie(part, &records)), 95), 9);
        }
        let mut bad = short(3 - part, &records);
        bad[part * 9 + 8] = MODULUS;
        assert_refused(&state, finish(&terms, &bad, 95), 8);
        bad[part * 9 + 6] = 2;
        assert_refused(&state, finish(&terms, &bad, 95), 8);
    }
}

/// A wrong triple in a session that remembers it: the damage decides, and a refused finish may be
/// called again.
#[test]
fn a_finish_needs_the_remembered_rows_in_order() {
    let (state, mut terms, records) = ready();
    for damage in [
        Damage::Left { first: 13, row: 1 },
        Damage::Right { first: 13, row: 0 },
        Damage::Right { first: 10, row: 255 },
        Damage::Mark { row: 13, mark: 3 },
        Damage::Mark { row: 13, mark: 7 },
        Damage::Mark { row: 15, mark: 2 },
    ] {
        let mut wrong = state.clone();
        damage.apply(&mut wrong);
        assert_refused(&wrong, finish(&terms, &records, 95), 7);
    }
    (terms[0].row, terms[0].second) = (1, 0);
    assert_refused(&state, finish(&terms, &records, 95), 7);
    (terms[0].row, terms[0].second) = (0, 1);
    let done = assert_taken(&state, finish(&terms, &records, 95)).state;
    assert_refused(&done, finish(&terms, &records, 94), 7);
}
