//! Each refusal of each call on a session, at its boundary, and their order.

mod common;

use common::*;
use reference::random::{Call, Damage, State};
use reference::{Library, Session, MODULUS, REFERENCE};

/// Post 1 of the furnished station, and valid records for row 9 and for the masks of triple 6.
fn post_1() -> (State, Vec<u32>, [Vec<u32>; 2]) {
    let (mut station, masks) = furnished();
    let messages = station.messages(9);
    let shape = station.shape;
    let records = masks.map(|masks| record(shape, &masks));
    (station.posts[0].clone(), record(shape, &messages), records)
}

/// One valid call of each kind, with its name for messages.
fn valid_calls() -> (State, Vec<Call>) {
    let (state, opening, [left, right]) = post_1();
    let calls = vec![
        Call::LoadRow { row: 95, pack: vec![1; 8] },
        Call::LoadTriple { first: 93, pack: vec![1; 24] },
        Call::Deal { row: 0, c: MODULUS - 1 },
        Call::OpeningMessage { row: 9, caller: 1, out: 2 },
        Call::Open { row: 9, record: opening },
        Call::Linear { dest: 95, a: 1, b: 2, scale: MODULUS - 1, fee: MODULUS - 1 },
        Call::Masks { a: 1, b: 1, first: 3, out: 4 },
        Call::OpenMasks { first: 6, record: left, record2: right },
        Call::Multiply { first: 80 },
    ];
    (state, calls)
}

fn with(state: &State, damage: &[Damage]) -> State {
    let mut state = state.clone();
    damage.iter().for_each(|damage| damage.apply(&mut state));
    state
}

#[test]
fn the_valid_calls_are_taken() {
    let (state, calls) = valid_calls();
    for call in calls {
        assert_taken(&state, call);
    }
}

#[test]
fn a_new_session_and_its_refusals() {
    let answer = REFERENCE.new_session(3, 2, 3, 1, MODULUS - 1, 0);
    let made = Session { n: 3, t: 2, post: 3, k: 1, point: MODULUS - 1, ..Session::BLANK };
    assert_eq!((answer.refusal, answer.value, answer.session), (0, 0, made));
    let refused = [
        ((0, 0, 0, 0), 1),
        ((1, 0, 0, 0), 1),
        ((256, 0, 0, 0), 1),
        ((usize::MAX, 1, 1, 1), 1),
        ((2, 0, 0, 0), 2),
        ((2, 2, 0, 0), 2),
        ((255, usize::MAX, 0, 0), 2),
        ((255, 254, 0, 0), 3),
        ((255, 254, 256, 0), 3),
        ((2, 1, usize::MAX, 0), 3),
        ((2, 1, 2, 0), 4),
        ((2, 1, 2, MODULUS), 4),
        ((2, 1, 2, u32::MAX), 4),
    ];
    for ((n, t, post, point), number) in refused {
        let answer = REFERENCE.new_session(n, t, post, 1, point, 0);
        assert_eq!((answer.refusal, answer.value), (number, 0), "{n} {t} {post} {point}");
        assert_eq!(answer.session, Session::BLANK);
    }
}

#[test]
fn every_call_checks_the_session_anew_and_first() {
    let (state, calls) = valid_calls();
    // From the last check to the first: each damage added to the ones before has the say.
    let damages = [
        (Damage::Length(767), 5),
        (Damage::Point(MODULUS), 4),
        (Damage::Points(0), 4),
        (Damage::Points(3), 4),
        (Damage::Point(0), 4),
        (Damage::Post(4), 3),
        (Damage::Post(0), 3),
        (Damage::Threshold(3), 2),
        (Damage::Threshold(0), 2),
        (Damage::Posts(256), 1),
        (Damage::Posts(1), 1),
        (Damage::Posts(usize::MAX), 1),
    ];
    for call in calls {
        let mut state = state.clone();
        for (damage, number) in damages {
            damage.apply(&mut state);
            assert_refused(&state, call.clone(), number);
        }
    }
}

#[test]
fn a_refused_session_gets_1() {
    let blank = State::new(REFERENCE.new_session(0, 0, 0, 0, 0, 0).session, vec![]);
    for call in valid_calls().1 {
        assert_refused(&blank, call, 1);
    }
}

#[test]
fn lists_one_short_and_one_long_get_5_before_anything_behind() {
    let (state, _, _) = post_1();
    for length in [767, 769] {
        let wrong = with(&state, &[Damage::Length(length)]);
        for call in valid_calls().1 {
            assert_refused(&wrong, call, 5);
        }
    }
    for length in [0, 7, 9, 24] {
        assert_refused(&state, Call::LoadRow { row: 96, pack: vec![MODULUS; length] }, 5);
    }
    for length in [0, 8, 23, 25] {
        assert_refused(&state, Call::LoadTriple { first: 94, pack: vec![MODULUS; length] }, 5);
    }
    for out in [0, 1, 3] {
        assert_refused(&state, Call::OpeningMessage { row: 96, caller: 1, out }, 5);
    }
    for out in [0, 2, 3, 5] {
        assert_refused(&state, Call::Masks { a: 96, b: 96, first: 94, out }, 5);
    }
    for length in [0, 8, 10] {
        let (wrong, right) = (vec![MODULUS; length], vec![0; 9]);
        assert_refused(&state, Call::Open { row: 96, record: wrong.clone() }, 5);
        for (record, record2) in [(wrong.clone(), right.clone()), (right, wrong)] {
            assert_refused(&state, Call::OpenMasks { first: 94, record, record2 }, 5);
        }
    }
}

#[test]
fn rows_above_the_last_get_6_before_marks_and_numbers() {
    let (state, _, _) = post_1();
    for row in [96, 97, 256, usize::MAX] {
        let bad = MODULUS;
        assert_refused(&state, Call::LoadRow { row, pack: vec![bad; 8] }, 6);
        assert_refused(&state, Call::Deal { row, c: bad }, 6);
        assert_refused(&state, Call::OpeningMessage { row, caller: 0, out: 2 }, 6);
        assert_refused(&state, Call::Open { row, record: vec![bad; 9] }, 6);
        // Row 0 is raw: the other two rows would get 7.
        assert_refused(&state, Call::Linear { dest: row, a: 0, b: 0, scale: bad, fee: bad }, 6);
        assert_refused(&state, Call::Linear { dest: 0, a: row, b: 0, scale: bad, fee: bad }, 6);
        assert_refused(&state, Call::Linear { dest: 0, a: 0, b: row, scale: bad, fee: bad }, 6);
        assert_refused(&state, Call::Masks { a: row, b: 0, first: 0, out: 4 }, 6);
        assert_refused(&state, Call::Masks { a: 0, b: row, first: 0, out: 4 }, 6);
    }
    for first in [94, 95, 96, usize::MAX - 1, usize::MAX] {
        assert_refused(&state, Call::LoadTriple { first, pack: vec![MODULUS; 24] }, 6);
        assert_refused(&state, Call::Masks { a: 0, b: 0, first, out: 4 }, 6);
        let nonsense = vec![MODULUS; 9];
        let call = Call::OpenMasks { first, record: nonsense.clone(), record2: nonsense };
        assert_refused(&state, call, 6);
        assert_refused(&state, Call::Multiply { first }, 6);
    }
    assert_taken(&state, Call::Linear { dest: 95, a: 1, b: 2, scale: 0, fee: 0 });
    assert_taken(&state, Call::LoadTriple { first: 93, pack: vec![0; 24] });
}

/// The places whose mark a call needs, with that mark.
fn needed_marks(call: &Call) -> Vec<(usize, u8)> {
    match *call {
        Call::LoadRow { row, .. } => vec![(row, 0)],
        Call::LoadTriple { first, .. } => vec![(first, 0), (first + 1, 0), (first + 2, 0)],
        Call::Deal { row, .. } => vec![(row, 1)],
        Call::OpeningMessage { row, .. } | Call::Open { row, .. } => vec![(row, 2)],
        Call::Linear { dest, a, b, .. } => vec![(dest, 0), (a, 2), (b, 2)],
        Call::Masks { a, b, first, .. } => {
            vec![(a, 2), (b, 2), (first, 3), (first + 1, 4), (first + 2, 4)]
        }
        Call::OpenMasks { first, .. } => {
            vec![(first, 5), (first + 1, 4), (first + 2, 4), (1, 2), (2, 2)]
        }
        Call::Multiply { first } => {
            vec![(first, 7), (first + 1, 4), (first + 2, 4), (1, 2), (2, 2)]
        }
        // The others have files of their own.
        _ => vec![],
    }
}

#[test]
fn every_other_mark_gets_7_before_numbers() {
    let (state, calls) = valid_calls();
    for call in calls {
        for (row, needed) in needed_marks(&call) {
            for mark in (0..=8).chain([255]).filter(|&mark| mark != needed) {
                let bad_number = Damage::Number { place: row * 8, number: MODULUS };
                let wrong = with(&state, &[Damage::Mark { row, mark }, bad_number]);
                assert_refused(&wrong, call.clone(), 7);
            }
        }
    }
}

#[test]
fn marks_that_a_call_does_not_need_are_not_looked_at() {
    let (state, calls) = valid_calls();
    for call in calls {
        let needed: Vec<usize> = needed_marks(&call).iter().map(|&(row, _)| row).collect();
        let damage = (0..96).filter(|row| !needed.contains(row));
        let damage: Vec<_> = damage.map(|row| Damage::Mark { row, mark: 200 }).collect();
        let right = assert_taken(&state, call.clone());
        let other = assert_taken(&with(&state, &damage), call);
        assert_eq!((right.value, right.out), (other.value, other.out));
        assert_eq!(right.state.rows, other.state.rows);
    }
}

#[test]
fn remembered_rows_of_a_finish_must_be_held() {
    let (state, _, [left, right]) = post_1();
    let call = Call::OpenMasks { first: 6, record: left, record2: right };
    for row in [0, 3, 6, 7, 8, 95, 96, 97, 255] {
        for damage in [Damage::Left { first: 6, row }, Damage::Right { first: 6, row }] {
            assert_refused(&with(&state, &[damage]), call.clone(), 7);
        }
    }
    // Those of other rows are not looked at, and masks overwrite what stood there.
    let elsewhere = [Damage::Left { first: 7, row: 255 }, Damage::Right { first: 8, row: 99 }];
    let done = assert_taken(&with(&state, &elsewhere), call).state;
    assert_eq!((done.session.left[6], done.session.right[6]), (1, 2));
    assert_eq!((done.session.left[7], done.session.right[8]), (255, 99));
    let stale = [Damage::Left { first: 3, row: 255 }, Damage::Right { first: 3, row: 99 }];
    let masks = Call::Masks { a: 2, b: 1, first: 3, out: 4 };
    let masked = assert_taken(&with(&state, &stale), masks).state;
    assert_eq!((masked.session.left[3], masked.session.right[3]), (2, 1));
}

#[test]
fn loads_leave_remembered_rows_as_they_are() {
    let (state, _, _) = post_1();
    let stale = [Damage::Left { first: 20, row: 255 }, Damage::Right { first: 20, row: 7 }];
    let state = with(&state, &stale);
    for call in [
        Call::LoadRow { row: 20, pack: vec![0; 8] },
        Call::LoadTriple { first: 20, pack: vec![0; 24] },
    ] {
        let session = assert_taken(&state, call).state.session;
        assert_eq!((session.left[20], session.right[20]), (255, 7));
    }
}
