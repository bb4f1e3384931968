//! Damage to calls and to what a post keeps.

use super::{mutate, Call, Rng, State};
use crate::{Barred, Shape, Term, DEALERS, DEALERS_STATE, PLACE};
use crate::{MAX_POSTS, MAX_TERMS, MODULUS, NO_ROW, ROWS};

/// Something wrong with session, rows or dealers.
#[derive(Clone, Copy, Debug, PartialEq, Eq)]
#[allow(missing_docs)]
pub enum Damage {
    Mark { row: usize, mark: u8 },
    Left { first: usize, row: u8 },
    Right { first: usize, row: u8 },
    Y { first: usize, number: u32 },
    Y2 { first: usize, number: u32 },
    Bars { row: usize, word: usize, bits: u32 },
    Number { place: usize, number: u32 },
    Posts(usize),
    Threshold(usize),
    Post(usize),
    Points(usize),
    Point(u32),
    Second(u32),
    Length(usize),
    Dealers { place: usize, byte: u8 },
    DealersLength(usize),
}

impl Damage {
    /// Does the damage.
    pub fn apply(self, state: &mut State) {
        let session = &mut state.session;
        match self {
            Self::Mark { row, mark } => session.marks[row] = mark,
            Self::Left { first, row } => session.left[first] = row,
            Self::Right { first, row } => session.right[first] = row,
            Self::Y { first, number } => session.y[first] = number,
            Self::Y2 { first, number } => session.y2[first] = number,
            Self::Bars { row, word, bits } => session.barred[row].0[word] = bits,
            Self::Number { place, number } => {
                if let Some(place) = state.rows.get_mut(place) {
                    *place = number;
                }
            }
            Self::Posts(n) => session.n = n,
            Self::Threshold(t) => session.t = t,
            Self::Post(post) => session.post = post,
            Self::Points(k) => session.k = k,
            Self::Point(point) => session.point = point,
            Self::Second(point) => session.second = point,
            Self::Length(length) => state.rows.resize(length, u32::MAX),
            Self::Dealers { place, byte } => {
                if let Some(place) = state.dealers.get_mut(place) {
                    *place = byte;
                }
            }
            Self::DealersLength(length) => state.dealers.resize(length, u8::MAX),
        }
    }

    /// Damage that concerns `call` more often than not.
    pub(super) fn random(rng: &mut Rng, shape: Shape, call: &Call) -> Self {
        if call.takes_dealers() && rng.one_in(2) {
            return Self::random_dealers(rng);
        }
        let named: Vec<usize> = call.rows().into_iter().filter(|&row| row < ROWS).collect();
        let some_row = rng.below(ROWS);
        let row = match rng.pick_any(&named) {
            Some(row) if !rng.one_in(5) => row,
            _ => some_row,
        };
        match rng.below(15) {
            0..=2 => Self::Mark { row, mark: random_mark(rng) },
            3 => Self::Left { first: row, row: random_factor(rng) },
            4 => Self::Right { first: row, row: random_factor(rng) },
            5..=7 => {
                Self::Number { place: random_place(rng, shape, row), number: rng.no_element() }
            }
            8 => Self::Length(random_length(rng, shape.all_rows())),
            9 => Self::Y { first: row, number: rng.number() },
            10 => Self::Y2 { first: row, number: rng.number() },
            11 => random_bars(rng, shape, row),
            _ => Self::random_heading(rng),
        }
    }

    /// Damage to the dealers' state: its length, the last dealer, a place's length, any byte.
    fn random_dealers(rng: &mut Rng) -> Self {
        match rng.below(4) {
            0 => Self::DealersLength(random_length(rng, DEALERS_STATE)),
            1 => Self::Dealers { place: 0, byte: rng.pick(&[0, 1, 7, 8, 9, 255]) },
            2 => {
                let place = 1 + (1 + PLACE) * rng.below(DEALERS);
                Self::Dealers { place, byte: rng.pick(&[0, 1, 15, 16, 17, 255]) }
            }
            _ => {
                let (place, byte) = (rng.below(DEALERS_STATE), rng.below(256) as u8);
                Self::Dealers { place, byte }
            }
        }
    }

    /// Damage to n, t, post or check points.
    fn random_heading(rng: &mut Rng) -> Self {
        let points = [0, MODULUS, u32::MAX, 1, 7];
        match rng.below(7) {
            0 => Self::Posts(rng.size()),
            1 => Self::Posts(rng.pick(&[0, 1, MAX_POSTS + 1, (1 << 32) + 3, usize::MAX])),
            2 => Self::Threshold(rng.size()),
            3 => Self::Post(rng.size()),
            4 => Self::Points(rng.pick(&[0, 1, 2, 3, 256, 257, usize::MAX])),
            5 => Self::Second(rng.pick(&points)),
            _ => Self::Point(rng.pick(&points)),
        }
    }
}

/// Other bits in one of a row's words: often the word of the last posts, or of those above n.
fn random_bars(rng: &mut Rng, shape: Shape, row: usize) -> Damage {
    let words = Barred::BITS / 32;
    let word = match rng.below(3) {
        0 => (shape.posts() - 1) / 32,
        1 => shape.posts() / 32,
        _ => rng.below(words),
    };
    let one = 1 << rng.below(32);
    Damage::Bars { row, word: word.min(words - 1), bits: rng.pick(&[0, u32::MAX, one, !one]) }
}

fn random_mark(rng: &mut Rng) -> u8 {
    match rng.below(8) {
        0 => rng.pick(&[8, 9, 255]),
        _ => rng.below(8) as u8,
    }
}

fn random_factor(rng: &mut Rng) -> u8 {
    match rng.below(3) {
        0 => rng.pick(&[95, 96, 97, 254, 255]),
        _ => rng.below(ROWS) as u8,
    }
}

/// A place in row `row`, often its first or last.
fn random_place(rng: &mut Rng, shape: Shape, row: usize) -> usize {
    let place = shape.at(row);
    match rng.below(3) {
        0 => place.start,
        1 => place.end - 1,
        _ => rng.between(place.start, place.end - 1),
    }
}

/// A length near `right`, mostly one off.
pub(super) fn random_length(rng: &mut Rng, right: usize) -> usize {
    match rng.below(6) {
        0 | 1 => right.saturating_sub(1),
        2 | 3 => right + 1,
        4 => 0,
        _ => rng.below(2 * right + 2),
    }
}

/// One thing about `list` made wrong: a number, or its length.
pub(super) fn damage_list(rng: &mut Rng, list: &mut Vec<u32>) {
    let length = list.len();
    match rng.below(4) {
        0 => list.resize(random_length(rng, length), u32::MAX),
        1 if length > 0 => list[length - 1] = rng.no_element(),
        _ if length > 0 => {
            let place = rng.below(length);
            list[place] = rng.number();
        }
        _ => list.push(0),
    }
}

/// The call with one argument made wrong, or at least different.
pub(super) fn damaged(rng: &mut Rng, call: &Call) -> Call {
    let mut call = call.clone();
    let only_line = call.sizes().is_empty();
    if let Some(line) = call.line().filter(|_| only_line || rng.one_in(2)) {
        *line = other_line(rng, line);
        return call;
    }
    if only_line {
        return call;
    }
    if call.terms().is_some() && rng.one_in(2) {
        let before = call.product_terms();
        call.terms().into_iter().for_each(|terms| damage_terms(rng, terms));
        if before > 0 && !rng.one_in(3) {
            call.fit_lists(before);
        }
        return call;
    }
    match rng.below(3) {
        0 if !call.lists().is_empty() => {
            let mut lists = call.lists();
            let choice = rng.below(lists.len());
            damage_list(rng, lists[choice]);
        }
        1 if !call.scalars().is_empty() => {
            let mut scalars = call.scalars();
            let choice = rng.below(scalars.len());
            *scalars[choice] = rng.number();
        }
        _ => {
            let mut sizes = call.sizes();
            let choice = rng.below(sizes.len());
            damage_size(rng, sizes[choice]);
        }
    }
    call
}

/// The line with something changed, or with as many bytes as a place holds, or more, or none.
fn other_line(rng: &mut Rng, line: &[u8]) -> Vec<u8> {
    if !rng.one_in(4) {
        return mutate(rng, line);
    }
    let mut other = line.to_vec();
    other.resize(rng.pick(&[0, 1, PLACE, PLACE + 1, 300]), b'1');
    other
}

/// One thing about the terms of a relation made different: a term, or how many there are.
fn damage_terms(rng: &mut Rng, terms: &mut Vec<Term>) {
    let Some(place) = (!terms.is_empty()).then(|| rng.below(terms.len())) else {
        terms.push(Term { coefficient: 1, row: 0, second: NO_ROW, first: 0 });
        return;
    };
    let term = &mut terms[place];
    match rng.below(12) {
        0 => term.coefficient = rng.no_element(),
        1 => term.coefficient = rng.element(),
        2 => damage_size(rng, &mut term.row),
        3 => damage_size(rng, &mut term.second),
        4 => damage_size(rng, &mut term.first),
        5 => (term.row, term.second) = (term.second, term.row),
        6 => term.second = rng.pick(&[NO_ROW, NO_ROW - 1, NO_ROW + 1, ROWS, term.row]),
        7 => terms.push(terms[place]),
        8 => _ = terms.remove(place),
        9 => terms.clear(),
        10 => terms.resize(MAX_TERMS + rng.below(2), Term { second: NO_ROW, ..terms[place] }),
        _ => terms.resize(MAX_TERMS + rng.below(2), terms[place]),
    }
}

/// Another size, often one off.
pub(super) fn damage_size(rng: &mut Rng, size: &mut usize) {
    *size = match rng.below(3) {
        0 => size.wrapping_add(1),
        1 => size.wrapping_sub(1),
        _ => rng.size(),
    };
}
