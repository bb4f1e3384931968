//! Who may have a number opened, at every number of posts: sets set, shared and forged, callers inside and outside, lines of right
//! and of wrong form.

use gantsorol::MAX_POSTS;
use reference::random::{callers_line, wild_bars, Call, Rng, State};
use reference::{Library, Session, Term, NO_ROW, REFERENCE};

use crate::common::Verified;
use crate::compare_call;

/// Where a session below has a raw row, two held ones, an empty one and a triple whose masks were opened, with these two for factors.
const RAW: usize = 3;
const HELD: [usize; 2] = [5, 94];
const EMPTY: usize = 0;
const FIRST: usize = 91;

/// Zeros for rows, and any bits in all sets.
fn forged(rng: &mut Rng, n: usize) -> State {
    let mut session = REFERENCE.new_session(n, 1, rng.between(1, n), 1, 7, 0).session;
    session.marks[RAW] = 1;
    HELD.into_iter().for_each(|row| session.marks[row] = 2);
    session.marks[FIRST..FIRST + 3].copy_from_slice(&[7, 4, 4]);
    (session.left[FIRST], session.right[FIRST]) = (HELD[0] as u8, HELD[1] as u8);
    session.barred = std::array::from_fn(|_| wild_bars(rng));
    State::new(session, vec![0; gantsorol::rows_len(n, 1, 1)])
}

/// Some of the posts 1 to n.
fn some(rng: &mut Rng, n: usize) -> Vec<usize> {
    let often = rng.pick(&[1, 2, 2, 3, 300]);
    (1..=n).filter(|_| !rng.one_in(often)).collect()
}

/// Whoever calls is answered by the row's set and n: whatever bits stand above n, nobody there may.
fn check_callers(session: Session, rows: &[u32], row: usize) {
    let n = session.n;
    let beyond = [(1 << 32) + 1, 1 << 63, usize::MAX];
    for caller in (0..=n + 2).chain([255, 256, 257, 512]).chain(beyond) {
        let answer = Verified.opening_message(session, rows, row, caller, &mut [0; 2]);
        let allowed = (1..=n).contains(&caller) && !session.barred[row].has(caller);
        assert_eq!(answer.refusal, if allowed { 0 } else { 15 }, "{caller} of {n}");
        assert_eq!((answer.value, answer.session), (0, session));
    }
}

/// The rows that a sum, a product and a relation make have the posts that theirs share; a line sets those that it lists.
#[test]
fn sets_at_every_number_of_posts() {
    for n in 2..=MAX_POSTS {
        let mut rng = Rng::new(n as u64);
        let State { mut session, rows, .. } = forged(&mut rng, n);
        check_callers(session, &rows, HELD[0]);
        let listed = some(&mut rng, n);
        let set = Verified.set_callers(session, &callers_line(RAW, &listed));
        assert_eq!(set, REFERENCE.set_callers(session, &callers_line(RAW, &listed)));
        session = set.session;
        let has: Vec<usize> = (1..=n).filter(|&post| !session.barred[RAW].has(post)).collect();
        assert_eq!((set.refusal, has), (0, listed));
        session.marks[RAW] = 2;
        check_callers(session, &rows, RAW);
        let [a, b] = HELD;
        let plain = |row| Term { coefficient: 0, row, second: NO_ROW, first: 0 };
        let state = State::new(session, rows);
        for call in [
            Call::Linear { dest: EMPTY, a, b: RAW, scale: 0, fee: 0 },
            Call::Linear { dest: EMPTY, a, b: a, scale: 1, fee: 1 },
            Call::Multiply { first: FIRST },
            Call::RelationFinish {
                terms: [a, b, RAW].map(plain).to_vec(),
                records: vec![],
                dest: EMPTY,
            },
        ] {
            assert_eq!(compare_call(n as u64, &call, &state), 0, "{call:?}");
            let mut short = state.clone();
            short.rows.pop();
            assert_eq!(compare_call(n as u64, &call, &short), 5, "{call:?}");
        }
        assert_eq!(compare_call(n as u64, &Call::Multiply { first: 94 }, &state), 6);
    }
}

/// A product's factor rows must be held rows: any byte that is remembered in their place, and any mark.
#[test]
fn factors_that_are_not_held() {
    let state = forged(&mut Rng::new(1), 9);
    let multiply = |session| Verified.multiply(session, &mut state.rows.clone(), FIRST);
    for row in 0..=255 {
        let held = HELD.contains(&usize::from(row));
        for left in [true, false] {
            let mut session = state.session;
            *(if left { &mut session.left } else { &mut session.right }[FIRST..]
                .first_mut()
                .expect("a row")) = row;
            assert_eq!(multiply(session).refusal, if held { 0 } else { 7 }, "{row}");
            let call = Call::Multiply { first: FIRST };
            compare_call(row.into(), &call, &State::new(session, state.rows.clone()));
        }
    }
    for mark in 0..=255 {
        let mut session = state.session;
        session.marks[HELD[1]] = mark;
        assert_eq!(multiply(session).refusal, if mark == 2 { 0 } else { 7 }, "{mark}");
    }
}

/// Every line that differs from this one in a byte: another, one more or one less; and every beginning of it.
pub fn nearly(line: &[u8]) -> Vec<Vec<u8>> {
    let odd = b",0129-+ AaD\n\r\0/:\xff";
    let at = |place: usize| {
        let (before, after) = line.split_at(place);
        let put = |byte: &u8| [before, &[*byte], after].concat();
        let instead = |byte: &u8| [before, &[*byte], after.get(1..).unwrap_or_default()].concat();
        let less = [before.to_vec(), [before, after.get(1..).unwrap_or_default()].concat()];
        odd.iter().map(put).chain(odd.iter().map(instead)).chain(less).collect::<Vec<_>>()
    };
    (0..=line.len()).flat_map(at).collect()
}

#[test]
fn lines_of_nearly_right_form() {
    let mut met = [0; 16];
    for n in [2, 9, 10, 33, 100, MAX_POSTS] {
        let state = forged(&mut Rng::new(n as u64), n);
        let all: Vec<usize> = (1..=n).collect();
        let few = if n > 100 { &[1, 99, 100, 101, 254, 255][..] } else { &all };
        for line in [callers_line(RAW, few), callers_line(RAW, &[]), callers_line(95, &[1, n])] {
            for line in nearly(&line) {
                let refusal = compare_call(n as u64, &Call::SetCallers { line }, &state);
                met[usize::from(refusal)] += 1;
            }
        }
    }
    assert!([0, 7, 10, 11].iter().all(|&refusal| met[refusal] > 50), "{met:?}");
    assert_eq!(met.iter().sum::<usize>(), met[0] + met[7] + met[10] + met[11]);
}

/// The longest line that is taken, and numbers of ten digits and more.
#[test]
fn long_lines() {
    let state = forged(&mut Rng::new(0), MAX_POSTS);
    let all: Vec<usize> = (1..=MAX_POSTS).collect();
    let line = |row, posts: &[usize]| Call::SetCallers { line: callers_line(row, posts) };
    let refusal = |call: &Call| compare_call(0, call, &state);
    assert_eq!(refusal(&line(RAW, &all)), 0);
    assert_eq!(refusal(&line(95, &all)), 7);
    assert_eq!(refusal(&line(RAW, &[1, 256])), 11);
    assert_eq!(refusal(&line(RAW, &[1, (1 << 32) + 2])), 11);
    assert_eq!(refusal(&line(RAW, &[1, 9_999_999_999])), 11);
    assert_eq!(refusal(&line(RAW, &[1, 10_000_000_000])), 10);
    assert_eq!(refusal(&line(96, &[2, 1])), 10);
    assert_eq!(refusal(&line((1 << 32) + RAW, &all)), 11);
    let long: Vec<usize> = (0..200_000).collect();
    assert_eq!(refusal(&line(RAW, &long)), 11);
    assert_eq!(refusal(&line(RAW, &[&long[..], &[1]].concat())), 10);
}
