//! Request (viii): finish becomes two calls.

mod common;

use common::*;
use reference::random::{Call, Damage, Rng, SharedRow, State};
use reference::{Library, Session, MODULUS, REFERENCE};

/// Post 1 of the furnished station, and records of the masks of triple 6, of which y is 4 and y' 2.
fn post_1() -> (State, Call) {
    let (station, masks) = furnished();
    let [record, record2] = masks.map(|masks| record(station.shape, &masks));
    (station.posts[0].clone(), Call::OpenMasks { first: 6, record, record2 })
}

fn with(state: &State, damage: &[Damage]) -> State {
    let mut state = state.clone();
    damage.iter().for_each(|damage| damage.apply(&mut state));
    state
}

#[test]
fn the_first_call_remembers_and_writes_nothing() {
    let (state, open_masks) = post_1();
    let opened = assert_taken(&state, open_masks);
    assert_eq!(opened.value, 0);
    assert_eq!(opened.state.rows, state.rows);
    let mut expected = state.session;
    expected.marks[6] = 7;
    (expected.y[6], expected.y2[6]) = (4, 2);
    assert_eq!(opened.state.session, expected);
}

#[test]
fn the_second_call_writes_the_product_and_keeps_the_numbers() {
    let (state, open_masks) = post_1();
    let opened = assert_taken(&state, open_masks).state;
    let done = assert_taken(&opened, Call::Multiply { first: 6 });
    assert_eq!(done.value, 0);
    let mut expected = opened.session;
    expected.marks[6..9].copy_from_slice(&[6, 6, 2]);
    assert_eq!(done.state.session, expected);
    // Only the third row changes: l'' + 4 l' + 2 l, and 8 in m1 to m3.
    let numbers = |rows: &[u32], row: usize| rows[row * 8..][..8].to_vec();
    for row in (0..96).filter(|&row| row != 8) {
        assert_eq!(numbers(&done.state.rows, row), numbers(&state.rows, row));
    }
    let [l, l2, l3] = [6, 7, 8].map(|row| numbers(&state.rows, row));
    let sum = |place: usize| l3[place] + 4 * l2[place] + 2 * l[place];
    let expected: Vec<u32> = (0..8).map(|k| sum(k) + if k < 5 { 0 } else { 8 }).collect();
    assert_eq!(numbers(&done.state.rows, 8), expected);
}

/// "After both calls the triple's rows are those the old finish left."
#[test]
fn any_product_by_two_calls() {
    for seed in 0..40 {
        let mut rng = Rng::new(seed);
        let shape = reference::random::street_shape(&mut rng);
        let mut station = Station::random(&mut rng, shape);
        let [mut a, mut b] = [(); 2].map(|()| SharedRow::random(&mut rng, station.shape));
        let triple = SharedRow::random_triple(&mut rng, station.shape);
        station.share(0, &a, 6);
        station.share(1, &b, 7);
        (a.f[0], b.f[0]) = (6, 7);
        station.load_triple(50, &triple);
        station.multiply(0, 1, 50);
        let product = SharedRow::product(&a, &b, &triple);
        for (post, state) in (1..).zip(&station.posts) {
            let points = shape.points_of(&station.points, post);
            assert_eq!(state.rows[shape.at(52)], product.row_of(post, points));
            assert_eq!(state.session.marks[50..53], [6, 6, 2]);
        }
    }
}

/// "A first call on mark 7 gets refusal 7", as does a second on any other mark.
#[test]
fn each_call_needs_its_mark() {
    let (state, open_masks) = post_1();
    let multiply = Call::Multiply { first: 6 };
    assert_refused(&state, multiply.clone(), 7);
    let opened = assert_taken(&state, open_masks.clone()).state;
    assert_refused(&opened, open_masks.clone(), 7);
    assert_refused(&opened, Call::Masks { a: 1, b: 1, first: 6, out: 4 }, 7);
    let done = assert_taken(&opened, multiply.clone()).state;
    assert_refused(&done, multiply.clone(), 7);
    assert_refused(&done, open_masks, 7);
    for damage in [
        Damage::Mark { row: 6, mark: 5 },
        Damage::Mark { row: 7, mark: 7 },
        Damage::Mark { row: 8, mark: 0 },
    ] {
        let wrong = with(&opened, &[damage, Damage::Y { first: 6, number: MODULUS }]);
        assert_refused(&wrong, multiply.clone(), 7);
    }
}

/// "One at least p gets 8."
#[test]
fn remembered_numbers_that_are_no_elements() {
    let (state, open_masks) = post_1();
    let multiply = Call::Multiply { first: 80 };
    for number in [MODULUS, u32::MAX] {
        for first in [79, 80, 81] {
            for damage in [Damage::Y { first, number }, Damage::Y2 { first, number }] {
                let wrong = with(&state, &[damage]);
                if first == 80 {
                    assert_refused(&wrong, multiply.clone(), 8);
                } else {
                    assert_taken(&wrong, multiply.clone());
                }
            }
        }
        // The first call doesn't look at what it overwrites, nor does any other.
        let stale = [Damage::Y { first: 6, number }, Damage::Y2 { first: 6, number }];
        let opened = assert_taken(&with(&state, &stale), open_masks.clone()).state;
        assert_eq!((opened.session.y[6], opened.session.y2[6]), (4, 2));
        let stale = [Damage::Y { first: 3, number }, Damage::Y2 { first: 3, number }];
        let masks = Call::Masks { a: 1, b: 1, first: 3, out: 4 };
        let masked = assert_taken(&with(&state, &stale), masks).state;
        assert_eq!((masked.session.y[3], masked.session.y2[3]), (number, number));
    }
    let edge = MODULUS - 1;
    let edges = [Damage::Y { first: 80, number: edge }, Damage::Y2 { first: 80, number: edge }];
    assert_taken(&with(&state, &edges), multiply);
}

/// The second call "takes only the triple": the numbers of its factors aren't read.
#[test]
fn the_second_call_does_not_read_the_factors() {
    let (state, _) = post_1();
    let damage = [8, 23].map(|place| Damage::Number { place, number: MODULUS });
    let right = assert_taken(&state, Call::Multiply { first: 80 }).state;
    let other = assert_taken(&with(&state, &damage), Call::Multiply { first: 80 }).state;
    assert_eq!(right.rows[82 * 8..83 * 8], other.rows[82 * 8..83 * 8]);
}

#[test]
fn a_new_session_remembers_zeros() {
    for (n, refusal) in [(3, 0), (1, 1)] {
        let answer = REFERENCE.new_session(n, 1, 1, 1, 1, 0);
        assert_eq!(answer.refusal, refusal);
        let Session { y, y2, .. } = answer.session;
        assert_eq!((y, y2), ([0; 96], [0; 96]));
    }
}

/// The street program's `F` is the pair: mark 7 is never left.
#[test]
fn a_refused_f_changes_nothing() {
    let row = "1,2,5,5,17,12,18,24";
    let start = format!("S,3,1,1,2\nR,0,{row}\nD,0,93\nT,2,{row},{row},{row}\nX,0,0,2\n");
    let lines = "F,2\nM,2,2,1,0,0,0\nF,2\nM,2,2,0,0,0,0\nF,2\nF,2\n";
    let refusals = common::program::refusals(format!("{start}{lines}").as_bytes());
    assert_eq!(refusals[5..], [9, 0, 9, 0, 0, 7]);
}
