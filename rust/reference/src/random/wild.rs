//! States and calls with every number at random, which never were part of a session.

use super::{mutate, Call, Rng, State};
use crate::{Barred, Session, Term, DEALERS, DEALERS_STATE, NO_ROW, PLACE, ROWS};

/// Numbers of a row, of two posts of which either opens with the other.
const ROW: usize = 6;

/// A session of two posts with right lengths over random marks and numbers, or with nothing right.
pub fn wild_state(rng: &mut Rng, sane: bool) -> State {
    let bytes = |rng: &mut Rng, bound: usize| std::array::from_fn(|_| rng.below(bound) as u8);
    let session = Session {
        n: if sane { 2 } else { rng.size() },
        t: if sane { 1 } else { rng.size() },
        post: if sane { rng.between(1, 2) } else { rng.size() },
        k: if sane { 1 } else { rng.pick(&[0, 1, 2, 3]) },
        point: if sane { 3 } else { rng.number() },
        second: rng.number(),
        marks: bytes(rng, 9),
        left: bytes(rng, 100),
        right: bytes(rng, 256),
        y: std::array::from_fn(|_| rng.number()),
        y2: std::array::from_fn(|_| rng.number()),
        barred: std::array::from_fn(|_| wild_bars(rng)),
    };
    let length = if sane { ROWS * ROW } else { rng.below(600) };
    let rows = match rng.below(2) {
        0 => rng.elements(length),
        _ => (0..length).map(|_| rng.number()).collect(),
    };
    State { session, rows, dealers: wild_dealers(rng, sane) }
}

/// A state of the dealers with right lengths, in most places a line, or with nothing right.
fn wild_dealers(rng: &mut Rng, sane: bool) -> Vec<u8> {
    if !sane && rng.one_in(3) {
        return vec![rng.below(256) as u8; rng.pick(&[0, 136, 137, 138, 274])];
    }
    let mut state = vec![rng.between(1, DEALERS) as u8];
    for _ in 0..DEALERS {
        let line = format!("D,{},{}\n", rng.below(ROWS + 2), rng.number());
        let line = if rng.one_in(3) { mutate(rng, line.as_bytes()) } else { line.into_bytes() };
        let length = if rng.one_in(2) { line.len() } else { rng.below(PLACE + 1) };
        state.push(length.min(PLACE + usize::from(rng.one_in(40))) as u8);
        state.extend(line.into_iter().chain([255; PLACE]).take(PLACE));
    }
    let length = if rng.one_in(40) { rng.below(200) } else { DEALERS_STATE };
    state.resize(length, 0);
    state
}

/// Any bits, of posts that no station has too.
pub fn wild_bars(rng: &mut Rng) -> Barred {
    match rng.below(6) {
        0 => Barred::NOBODY,
        1 => Barred(Barred::NOBODY.0.map(|_| u32::MAX)),
        _ => Barred(Barred::NOBODY.0.map(|_| rng.bits() as u32)),
    }
}

/// Each call once, most of them wild.
pub fn wild_calls(rng: &mut Rng) -> [Call; 16] {
    let list = |rng: &mut Rng| {
        let length = rng.pick(&[6, 6, 6, 18, 18, 5, 7, 0]);
        (0..length).map(|_| rng.number()).collect::<Vec<_>>()
    };
    let (a, b, c) = (rng.size(), rng.size(), rng.size());
    [
        wild_start(rng, a, b, c),
        Call::LoadRow { row: a, pack: list(rng) },
        Call::LoadTriple { first: a, pack: list(rng) },
        Call::Deal { row: a, c: rng.number() },
        Call::OpeningMessage {
            row: a,
            caller: if rng.one_in(4) { rng.size() } else { rng.below(4) },
            out: rng.pick(&[2, 2, 2, 0, 1, 3]),
        },
        Call::SetCallers { line: wild_line(rng, a) },
        Call::NewDealers,
        Call::PlaceLine { dealer: rng.below(11), line: wild_line(rng, a) },
        Call::Turn,
        Call::Open { row: a, record: list(rng) },
        Call::Linear { dest: a, a: b, b: c, scale: rng.number(), fee: rng.number() },
        Call::Masks { a, b, first: c, out: rng.pick(&[4, 4, 4, 0, 3, 5]) },
        Call::OpenMasks { first: a, record: list(rng), record2: list(rng) },
        Call::Multiply { first: a },
        Call::RelationMasks { terms: wild_terms(rng), out: rng.pick(&[0, 0, 4, 4, 8, 5]) },
        Call::RelationFinish { terms: wild_terms(rng), records: wild_records(rng), dest: a },
    ]
}

/// A new session, mostly of one or two points.
fn wild_start(rng: &mut Rng, n: usize, t: usize, post: usize) -> Call {
    let k = if rng.one_in(4) { rng.size() } else { rng.between(1, 2) };
    Call::NewSession { n, t, post, k, point: rng.number(), second: rng.number() }
}

/// An `A` line, mostly for one of few posts.
fn wild_line(rng: &mut Rng, row: usize) -> Vec<u8> {
    let posts = (0..4).filter(|_| rng.one_in(2)).map(|post| post.to_string());
    let posts = posts.collect::<Vec<_>>().join(",");
    let line = format!("A,{row},{posts}\n").into_bytes();
    if rng.one_in(3) {
        mutate(rng, &line)
    } else {
        line
    }
}

/// Up to three terms, rarely more than 32.
fn wild_terms(rng: &mut Rng) -> Vec<Term> {
    let term = |rng: &mut Rng| Term {
        coefficient: rng.number(),
        row: if rng.one_in(4) { rng.size() } else { rng.below(ROWS) },
        second: if rng.one_in(2) { NO_ROW } else { rng.size() },
        first: if rng.one_in(4) { rng.size() } else { rng.below(ROWS) },
    };
    let count = if rng.one_in(20) { rng.between(30, 40) } else { rng.below(4) };
    (0..count).map(|_| term(rng)).collect()
}

/// The two records of no, one or two product terms.
fn wild_records(rng: &mut Rng) -> Vec<u32> {
    let length = rng.pick(&[0, 0, 0, 12, 12, 24, 11, 13]);
    (0..length).map(|_| rng.number()).collect()
}

/// A session of two posts in which every row is held but a triple's, over numbers that no factory
/// made: mostly zeros, so that now and then a polynomial is accepted. The triple's first row, which
/// has this mark and these factors remembered.
pub fn odd_triple(rng: &mut Rng, mark: u8) -> (State, usize) {
    let first = rng.below(ROWS - 2);
    let mut session = Session { marks: [2; ROWS], ..wild_state(rng, true).session };
    session.marks[first..first + 3].copy_from_slice(&[mark, 4, 4]);
    (session.left[first], session.right[first]) = (rng.below(98) as u8, rng.below(98) as u8);
    let mut number = || if rng.one_in(400) { rng.number() } else { u32::from(rng.one_in(10)) };
    let rows = (0..ROWS * ROW).map(|_| number()).collect();
    (State::new(session, rows), first)
}
