//! Refusal 8 and how far it reaches, and refusal 9 behind it.

mod common;

use common::*;
use reference::random::{Call, Damage, State};
use reference::MODULUS;

/// The furnished post `post`, and all posts' messages for row 9 and for the masks of triple 6.
fn furnished_post(post: usize) -> (State, Vec<Message>, [Vec<Message>; 2]) {
    let (mut station, masks) = furnished();
    let messages = station.messages(9);
    (station.posts[post - 1].clone(), messages, masks)
}

fn to_record(messages: &[Message]) -> Vec<u32> {
    let shape = reference::Shape::checked(3, 1, 1).unwrap();
    record(shape, messages)
}

/// The rows that check 8 covers, for valid calls on the furnished post 1.
fn calls_and_rows_read() -> (State, Vec<(Call, Vec<usize>)>) {
    let (state, messages, masks) = furnished_post(1);
    let [record, record2] = masks.map(|masks| to_record(&masks));
    let calls = vec![
        (Call::LoadRow { row: 50, pack: vec![0; 8] }, vec![]),
        (Call::LoadTriple { first: 50, pack: vec![0; 24] }, vec![]),
        (Call::Deal { row: 0, c: 1 }, vec![0]),
        (Call::OpeningMessage { row: 9, caller: 1, out: 2 }, vec![9]),
        (Call::Open { row: 9, record: to_record(&messages) }, vec![9]),
        (Call::Linear { dest: 50, a: 1, b: 2, scale: 3, fee: 4 }, vec![1, 2]),
        (Call::Masks { a: 1, b: 2, first: 3, out: 4 }, vec![1, 2, 3, 4]),
        (Call::OpenMasks { first: 6, record, record2 }, vec![1, 2, 6, 7]),
        (Call::Multiply { first: 80 }, vec![80, 81, 82]),
    ];
    (state, calls)
}

#[test]
fn a_number_p_anywhere_in_a_row_read_gets_8_and_elsewhere_nothing() {
    let (state, calls) = calls_and_rows_read();
    for (call, read) in calls {
        for row in 0..96 {
            for place in row * 8..row * 8 + 8 {
                for number in [MODULUS, u32::MAX] {
                    let mut wrong = state.clone();
                    Damage::Number { place, number }.apply(&mut wrong);
                    if read.contains(&row) {
                        assert_refused(&wrong, call.clone(), 8);
                    } else {
                        assert_taken(&wrong, call.clone());
                    }
                }
            }
        }
    }
}

#[test]
fn a_number_p_anywhere_in_a_pack_gets_8() {
    let (state, _, _) = furnished_post(1);
    for place in 0..24 {
        let mut pack = vec![MODULUS - 1; 24];
        assert_taken(&state, Call::LoadTriple { first: 10, pack: pack.clone() });
        pack[place] = MODULUS;
        assert_refused(&state, Call::LoadTriple { first: 10, pack: pack.clone() }, 8);
        pack.truncate(8);
        if place < 8 {
            assert_refused(&state, Call::LoadRow { row: 10, pack }, 8);
        } else {
            assert_taken(&state, Call::LoadRow { row: 10, pack });
        }
    }
}

#[test]
fn scalars_at_least_p_get_8() {
    let (state, _, _) = furnished_post(1);
    for number in [MODULUS, MODULUS + 1, u32::MAX] {
        assert_refused(&state, Call::Deal { row: 0, c: number }, 8);
        let linear = |scale, fee| Call::Linear { dest: 50, a: 1, b: 1, scale, fee };
        assert_refused(&state, linear(number, 0), 8);
        assert_refused(&state, linear(0, number), 8);
    }
}

/// Every way to fill a record with something that check 8 must see, or must not, at post 2.
fn assert_reach_in_record(state: &State, right: &[u32], call: impl Fn(Vec<u32>) -> Call) {
    let own = 3..6;
    for place in 0..9 {
        for number in [2, 3, MODULUS, u32::MAX] {
            let mut record = right.to_vec();
            record[place] = number;
            let is_mark = place % 3 == 0;
            if own.contains(&place) {
                assert_taken(state, call(record));
            } else if is_mark || number >= MODULUS {
                assert_refused(state, call(record), 8);
            } else {
                // A wrong coefficient: too few are left, or another block makes up for it.
                assert_taken(state, call(record));
            }
        }
    }
    let mut absent = right.to_vec();
    absent[6..9].copy_from_slice(&[0, MODULUS, u32::MAX]);
    assert_taken(state, call(absent.clone()));
    absent[3..6].copy_from_slice(&[9, MODULUS, u32::MAX]);
    assert_taken(state, call(absent));
}

#[test]
fn the_reach_of_8_in_a_record() {
    let (state, messages, _) = furnished_post(2);
    let right = to_record(&messages);
    assert_reach_in_record(&state, &right, |record| Call::Open { row: 9, record });
}

#[test]
fn the_reach_of_8_in_both_records_of_a_finish() {
    let (state, _, masks) = furnished_post(2);
    let [left, right] = masks.map(|masks| to_record(&masks));
    let finish = |record, record2| Call::OpenMasks { first: 6, record, record2 };
    assert_reach_in_record(&state, &left, |record| finish(record, right.clone()));
    assert_reach_in_record(&state, &right, |record2| finish(left.clone(), record2));
}

#[test]
fn eight_comes_before_nine_also_behind_the_walks_end_and_in_the_other_record() {
    let (state, _, masks) = furnished_post(1);
    let [left, right] = masks.map(|masks| to_record(&masks));
    // Post 1's walk ends at post 2; post 3's block is looked at all the same.
    let mut behind = left.clone();
    behind[8] = MODULUS;
    let finish = |record: &[u32], record2: &[u32]| Call::OpenMasks {
        first: 6,
        record: record.to_vec(),
        record2: record2.to_vec(),
    };
    assert_refused(&state, finish(&behind, &right), 8);
    let empty = [0; 9];
    assert_refused(&state, finish(&empty, &right), 9);
    assert_refused(&state, finish(&left, &empty), 9);
    let mut mark_2 = empty;
    mark_2[6] = 2;
    assert_refused(&state, finish(&empty, &mark_2), 8);
    assert_refused(&state, finish(&mark_2, &empty), 8);
}

#[test]
fn a_refused_finish_may_be_called_again() {
    let (state, _, masks) = furnished_post(3);
    let [left, right] = masks.map(|masks| to_record(&masks));
    let short = Call::OpenMasks { first: 6, record: left.clone(), record2: vec![0; 9] };
    assert_refused(&state, short, 9);
    let full = Call::OpenMasks { first: 6, record: left, record2: right };
    let opened = assert_taken(&state, full.clone()).state;
    assert_eq!(opened.session.marks[6..9], [7, 4, 4]);
    assert_refused(&opened, full.clone(), 7);
    let done = assert_taken(&opened, Call::Multiply { first: 6 }).state;
    assert_eq!(done.session.marks[6..9], [6, 6, 2]);
    assert_refused(&done, full, 7);
}

/// "The post's own polynomial is checked at its own check point like any other."
#[test]
fn an_own_polynomial_that_fails_its_check_does_not_count() {
    let (mut state, messages, _) = furnished_post(1);
    Damage::Number { place: 9 * 8, number: 2 }.apply(&mut state);
    let without_third = [messages.clone()[..2].to_vec(), vec![None]].concat();
    let open = |messages: &[Message]| Call::Open { row: 9, record: to_record(messages) };
    assert_refused(&state, open(&without_third), 9);
    let opened = assert_taken(&state, open(&messages));
    assert_eq!(opened.value, 100);
}
