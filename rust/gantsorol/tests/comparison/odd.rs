//! Products and relations over rows and records that no factory and no post made.

use reference::random::{odd_triple, wild_state, Call, Rng, Seen, State};
use reference::{Session, Term, NO_ROW};

use crate::common::seeds;
use crate::{compare_call, fixed_seeds};

/// Products over rows and records that no factory and no post made: whatever is accepted, opened
/// and written, it is the same.
#[test]
fn products_of_odd_numbers() {
    let mut seen = Seen::default();
    for seed in seeds(30_000) {
        let mut rng = Rng::new(seed);
        let mark = rng.pick(&[3, 5, 5, 7]);
        let (state, first) = odd_triple(&mut rng, mark);
        let record = |rng: &mut Rng| match rng.below(12) {
            0 => (0..6).map(|_| rng.number()).collect(),
            _ => (0..6).map(|place| u32::from(place % 3 == 0 || rng.one_in(12))).collect(),
        };
        let call = match mark {
            3 => Call::Masks { a: rng.below(96), b: rng.below(96), first, out: 4 },
            5 => Call::OpenMasks { first, record: record(&mut rng), record2: record(&mut rng) },
            _ => Call::Multiply { first },
        };
        seen.note(&call, compare_call(seed, &call, &state));
    }
    if fixed_seeds() {
        seen.assert_met(&[
            ("Masks", &[0, 7, 8]),
            ("OpenMasks", &[0, 7, 8, 9]),
            ("Multiply", &[0, 8]),
        ]);
        assert!(seen.count("OpenMasks", 0) > 500, "{seen:?}");
    }
}

/// 24 triples with this mark that remember held rows, 16 held rows and 8 empty ones, of two posts.
/// Public sums are any elements; the other numbers are mostly zeros, so that most blocks are accepted.
fn odd_triples(rng: &mut Rng, mark: u8) -> State {
    let mut session = wild_state(rng, true).session;
    for first in (0..72).step_by(3) {
        session.marks[first..first + 3].copy_from_slice(&[mark, 4, 4]);
        session.left[first] = rng.between(72, 87) as u8;
        session.right[first] = rng.between(72, 87) as u8;
    }
    session.marks[72..88].fill(2);
    session.marks[88..].fill(0);
    let mut rows: Vec<u32> = (0..96 * 6).map(|_| u32::from(rng.one_in(300))).collect();
    for row in rows.chunks_mut(6) {
        row[4..].copy_from_slice(&rng.elements(2));
    }
    State::new(session, rows)
}

/// Terms over that state, up to 32 of them: products with triples of their own, and plain terms.
fn odd_terms(rng: &mut Rng, session: &Session) -> Vec<Term> {
    let mut firsts: Vec<usize> = (0..72).step_by(3).collect();
    let (count, kind) = (rng.between(1, 32), rng.between(1, 4));
    let term = |_| {
        let coefficient = rng.elements(1)[0];
        if firsts.is_empty() || rng.below(4) >= kind {
            return Term { coefficient, row: rng.between(72, 87), second: NO_ROW, first: 300 };
        }
        let first = firsts.swap_remove(rng.below(firsts.len()));
        let [row, second] = [session.left[first], session.right[first]].map(usize::from);
        Term { coefficient, row, second, first }
    };
    (0..count).map(term).collect()
}

/// One thing about a relation made wrong, or nothing.
fn one_thing_wrong(rng: &mut Rng, terms: &mut Vec<Term>, list: &mut Vec<u32>) {
    let place = rng.below(terms.len());
    let other = terms[rng.below(terms.len())];
    let number = rng.below(list.len().max(1));
    match rng.below(24) {
        0 => terms[place].coefficient = gantsorol::MODULUS,
        1 => terms[place].row = rng.pick(&[88, 95, 96, 255, 0, 2]),
        2 => terms[place].second = rng.pick(&[88, 96, 254, NO_ROW, 0, 2]),
        3 => terms[place].first = rng.pick(&[93, 94, 255, 1, other.first]),
        4 => terms[place] = Term { row: terms[place].second, second: terms[place].row, ..other },
        5 => terms[place] = other,
        6 => terms.push(other),
        7 => terms.resize(rng.pick(&[33, 32, 64, 0]), other),
        8 => list.push(0),
        9 => _ = list.pop(),
        10 if !list.is_empty() => list[number] = gantsorol::MODULUS,
        11 if !list.is_empty() => list[number] = rng.below(3) as u32,
        _ => {}
    }
}

/// Relations of 1 to 32 terms, the products up to 24 of them, right and wrong in each way.
#[test]
fn relations_of_many_terms() {
    let mut seen = Seen::default();
    let mut longest = 0;
    for seed in seeds(30_000) {
        let mut rng = Rng::new(seed);
        let sending = rng.one_in(3);
        let state = odd_triples(&mut rng, if sending { 3 } else { 5 });
        let mut terms = odd_terms(&mut rng, &state.session);
        let products = terms.iter().filter(|term| term.second != NO_ROW).count();
        let absent = rng.one_in(6);
        let block = |place| u32::from(place % 3 == 0 && !(absent && rng.one_in(40)));
        let mut list: Vec<u32> = match sending {
            true => vec![0; products * 4],
            false => (0..products * 12).map(block).collect(),
        };
        one_thing_wrong(&mut rng, &mut terms, &mut list);
        let (length, dest) = (terms.len(), rng.pick(&[88, 89, 95, 88, 89, 95, 96, 72, 0]));
        let call = match sending {
            true => Call::RelationMasks { terms, out: list.len() },
            false => Call::RelationFinish { terms, records: list, dest },
        };
        let refusal = compare_call(seed, &call, &state);
        seen.note(&call, refusal);
        longest = longest.max(if refusal == 0 { length } else { 0 });
    }
    if fixed_seeds() {
        seen.assert_met(&[
            ("RelationMasks", &[0, 5, 6, 7, 8, 14]),
            ("RelationFinish", &[0, 5, 6, 7, 8, 9, 14]),
        ]);
        assert_eq!(longest, 32, "{seen:?}");
        assert!(seen.count("RelationFinish", 0) > 3000, "{seen:?}");
    }
}
