//! Request (i): a fixed fee in the sum.

mod common;

use common::*;
use reference::random::{Call, Damage, State};
use reference::MODULUS;

/// Row 0 holds 12 rides and row 1 a rate of 35; the triple at row 2 makes their product.
fn charged(fee: u32) -> Station {
    let mut station = Station::hand();
    station.share(0, &hand_row([7, 4]), 12);
    station.share(1, &hand_row([11, 3]), 35);
    station.load_triple(2, &[hand_row([2, 9]), hand_row([5, 1]), hand_row([10, 8])]);
    station.multiply(0, 1, 2);
    station.each(|_| Call::Linear { dest: 5, a: 4, b: 0, scale: 0, fee });
    station
}

#[test]
fn a_charge_is_rides_times_rate_plus_the_fee() {
    assert_eq!(charged(80).open(5), [500; 3]);
    assert_eq!(charged(0).open(5), [420; 3]);
    assert_eq!(charged(MODULUS - 420).open(5), [0; 3]);
    assert_eq!(charged(MODULUS - 1).open(5), [419; 3]);
}

/// "Added to m1..mn of the new row and to nothing else."
#[test]
fn the_fee_goes_to_the_sums_only() {
    let (with, without) = (charged(80), charged(0));
    for (with, without) in with.posts.iter().zip(&without.posts) {
        assert_eq!(with.session, without.session);
        for (place, (&new, &old)) in with.rows.iter().zip(&without.rows).enumerate() {
            let sums = 5 * 8 + 5..6 * 8;
            let expected = if sums.contains(&place) { (old + 80) % MODULUS } else { old };
            assert_eq!(new, expected, "place {place}");
        }
    }
}

/// What all posts open when every one of them has this added to places of the charge's row.
fn opened_with(places: &[usize], number: u32) -> Vec<u8> {
    let mut station = charged(80);
    let messages = station.messages(5);
    for state in &mut station.posts {
        for &place in places {
            let place = &mut state.rows[5 * 8 + place];
            *place = (*place + number) % MODULUS;
        }
    }
    let record = record(station.shape, &messages);
    let open = |state: &State| {
        let call = Call::Open { row: 5, record: record.clone() };
        let outcome = call.perform(&reference::REFERENCE, state);
        outcome.refusal + u8::from(outcome.refusal == 0 && outcome.value != 500)
    };
    station.posts.iter().map(open).collect()
}

/// Wrong programs: the fee in all but the first sum, in the check values too, left out.
#[test]
fn a_fee_elsewhere_is_noticed() {
    assert_eq!(opened_with(&[], 0), [0; 3]);
    assert_eq!(opened_with(&[5], MODULUS - 80), [13; 3]);
    assert_eq!(opened_with(&[2, 3, 4], 80), [9; 3]);
    assert_eq!(opened_with(&[5, 6, 7], MODULUS - 80), [1; 3]);
}

/// A wrong program: the fee in the polynomial's constant, which opens without it.
#[test]
fn a_fee_in_the_constant_too_counts_nothing() {
    let mut station = charged(80);
    for state in &mut station.posts {
        for place in [0, 2, 3, 4] {
            let place = &mut state.rows[5 * 8 + place];
            *place = (*place + 80) % MODULUS;
        }
    }
    assert_eq!(station.open(5), [420; 3]);
}

#[test]
fn a_fee_of_p_gets_8_behind_6_and_7() {
    let state = charged(0).posts.remove(0);
    let linear = |dest, a, b, fee| Call::Linear { dest, a, b, scale: 1, fee };
    assert_taken(&state, linear(6, 0, 1, MODULUS - 1));
    for fee in [MODULUS, MODULUS + 1, u32::MAX] {
        assert_refused(&state, linear(6, 0, 1, fee), 8);
        assert_refused(&state, linear(5, 0, 1, fee), 7);
        assert_refused(&state, linear(6, 2, 1, fee), 7);
        assert_refused(&state, linear(6, 0, 3, fee), 7);
        assert_refused(&state, linear(96, 2, 2, fee), 6);
        assert_refused(&state, linear(5, 2, 96, fee), 6);
    }
    let mut short = state.clone();
    Damage::Length(767).apply(&mut short);
    assert_refused(&short, linear(96, 2, 2, MODULUS), 5);
}

/// "Whoever calls it today passes 0."
#[test]
fn a_fee_of_0_is_the_plain_sum() {
    let state = charged(0).posts.remove(1);
    let call = Call::Linear { dest: 6, a: 0, b: 1, scale: 3, fee: 0 };
    let rows = assert_taken(&state, call).state.rows;
    for place in 0..8 {
        assert_eq!(rows[6 * 8 + place], rows[place] + 3 * rows[8 + place]);
    }
}
