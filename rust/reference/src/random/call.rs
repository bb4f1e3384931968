//! The calls on a session as data.

use crate::{Answer, Library, Session, Term, DEALERS, DEALERS_STATE, NO_ROW};

/// What a post keeps between two calls.
#[derive(Clone, Debug, PartialEq, Eq)]
pub struct State {
    /// The session.
    pub session: Session,
    /// The lent list of rows.
    pub rows: Vec<u32>,
    /// The lent state of the dealers.
    pub dealers: Vec<u8>,
}

impl State {
    /// These, and dealers of whom none has a line waiting.
    pub fn new(session: Session, rows: Vec<u32>) -> Self {
        let mut dealers = vec![0; DEALERS_STATE];
        dealers[0] = DEALERS as u8;
        Self { session, rows, dealers }
    }
}

/// One call with its arguments, beside the session and the rows. Lists to be filled are given by
/// their length.
#[derive(Clone, Debug, PartialEq, Eq)]
#[allow(missing_docs)]
pub enum Call {
    NewSession { n: usize, t: usize, post: usize, k: usize, point: u32, second: u32 },
    LoadRow { row: usize, pack: Vec<u32> },
    LoadTriple { first: usize, pack: Vec<u32> },
    Deal { row: usize, c: u32 },
    OpeningMessage { row: usize, caller: usize, out: usize },
    SetCallers { line: Vec<u8> },
    NewDealers,
    PlaceLine { dealer: usize, line: Vec<u8> },
    Turn,
    Open { row: usize, record: Vec<u32> },
    Linear { dest: usize, a: usize, b: usize, scale: u32, fee: u32 },
    Masks { a: usize, b: usize, first: usize, out: usize },
    OpenMasks { first: usize, record: Vec<u32>, record2: Vec<u32> },
    Multiply { first: usize },
    RelationMasks { terms: Vec<Term>, out: usize },
    RelationFinish { terms: Vec<Term>, records: Vec<u32>, dest: usize },
}

/// Everything that a call hands back or may have changed.
#[derive(Clone, Debug, PartialEq, Eq)]
pub struct Outcome {
    /// The refusal, 0 for none.
    pub refusal: u8,
    /// The number opened.
    pub value: u32,
    /// Session, rows and dealers after the call.
    pub state: State,
    /// The list that was lent to be filled.
    pub out: Vec<u32>,
}

impl Call {
    /// Makes the call on a copy of `state`.
    pub fn perform(&self, library: &impl Library, state: &State) -> Outcome {
        let mut state = state.clone();
        let mut out = unwritten(self.out_length());
        let answer = self.answer(library, &mut state, &mut out);
        state.session = answer.session;
        Outcome { refusal: answer.refusal, value: answer.value, state, out }
    }

    /// What the library answers. The session that it hands back is still to be kept.
    fn answer(&self, library: &impl Library, state: &mut State, out: &mut [u32]) -> Answer {
        let State { session: s, ref mut rows, ref mut dealers } = *state;
        let answered = |refusal| Answer { refusal, value: 0, session: s };
        match *self {
            Self::NewSession { n, t, post, k, point, second } => {
                library.new_session(n, t, post, k, point, second)
            }
            Self::LoadRow { row, ref pack } => library.load_row(s, rows, row, pack),
            Self::LoadTriple { first, ref pack } => library.load_triple(s, rows, first, pack),
            Self::Deal { row, c } => library.deal(s, rows, row, c),
            Self::OpeningMessage { row, caller, .. } => {
                library.opening_message(s, rows, row, caller, out)
            }
            Self::SetCallers { ref line } => library.set_callers(s, line),
            Self::NewDealers => answered(library.new_dealers(dealers)),
            Self::PlaceLine { dealer, ref line } => {
                answered(library.place_line(dealers, dealer, line))
            }
            Self::Turn => library.turn(s, rows, dealers),
            Self::Open { row, ref record } => library.open(s, rows, row, record),
            Self::Linear { dest, a, b, scale, fee } => {
                library.linear(s, rows, dest, a, b, scale, fee)
            }
            Self::Masks { a, b, first, .. } => library.masks(s, rows, a, b, first, out),
            Self::OpenMasks { first, ref record, ref record2 } => {
                library.open_masks(s, rows, first, record, record2)
            }
            Self::Multiply { first } => library.multiply(s, rows, first),
            Self::RelationMasks { ref terms, .. } => library.relation_masks(s, rows, terms, out),
            Self::RelationFinish { ref terms, ref records, dest } => {
                library.relation_finish(s, rows, terms, records, dest)
            }
        }
    }

    /// The length of the list that the call fills.
    fn out_length(&self) -> usize {
        match *self {
            Self::OpeningMessage { out, .. }
            | Self::Masks { out, .. }
            | Self::RelationMasks { out, .. } => out,
            _ => 0,
        }
    }

    /// The lists that the call reads.
    pub(super) fn lists(&mut self) -> Vec<&mut Vec<u32>> {
        match self {
            Self::LoadRow { pack, .. } | Self::LoadTriple { pack, .. } => vec![pack],
            Self::Open { record, .. } => vec![record],
            Self::OpenMasks { record, record2, .. } => vec![record, record2],
            Self::RelationFinish { records, .. } => vec![records],
            _ => vec![],
        }
    }

    /// The line that the call reads.
    pub(super) fn line(&mut self) -> Option<&mut Vec<u8>> {
        match self {
            Self::SetCallers { line } | Self::PlaceLine { line, .. } => Some(line),
            _ => None,
        }
    }

    /// Whether the call is lent the state of the dealers.
    pub(super) fn takes_dealers(&self) -> bool {
        matches!(self, Self::NewDealers | Self::PlaceLine { .. } | Self::Turn)
    }

    /// The terms of a relation.
    pub(super) fn terms(&mut self) -> Option<&mut Vec<Term>> {
        match self {
            Self::RelationMasks { terms, .. } | Self::RelationFinish { terms, .. } => Some(terms),
            _ => None,
        }
    }

    /// How many terms of a relation are products.
    pub(super) fn product_terms(&self) -> usize {
        match self {
            Self::RelationMasks { terms, .. } | Self::RelationFinish { terms, .. } => {
                terms.iter().filter(|term| term.second != NO_ROW).count()
            }
            _ => 0,
        }
    }

    /// Makes the list of a relation fit its product terms, of which there were `before`.
    pub(super) fn fit_lists(&mut self, before: usize) {
        let after = self.product_terms();
        match self {
            Self::RelationMasks { out, .. } => *out = (*out / before).saturating_mul(after),
            Self::RelationFinish { records, .. } => {
                records.resize(records.len() / before * after, 0)
            }
            _ => {}
        }
    }

    /// Row numbers, post numbers and lengths.
    pub(super) fn sizes(&mut self) -> Vec<&mut usize> {
        match self {
            Self::NewSession { n, t, post, k, .. } => vec![n, t, post, k],
            Self::LoadRow { row, .. } | Self::Deal { row, .. } | Self::Open { row, .. } => {
                vec![row]
            }
            Self::LoadTriple { first, .. }
            | Self::OpenMasks { first, .. }
            | Self::Multiply { first } => vec![first],
            Self::OpeningMessage { row, caller, out } => vec![row, caller, out],
            Self::PlaceLine { dealer, .. } => vec![dealer],
            Self::SetCallers { .. } | Self::NewDealers | Self::Turn => vec![],
            Self::Linear { dest, a, b, .. } => vec![dest, a, b],
            Self::Masks { a, b, first, out } => vec![a, b, first, out],
            Self::RelationMasks { out: size, .. } | Self::RelationFinish { dest: size, .. } => {
                vec![size]
            }
        }
    }

    /// Elements given by themselves.
    pub(super) fn scalars(&mut self) -> Vec<&mut u32> {
        match self {
            Self::NewSession { point, second, .. } => vec![point, second],
            Self::Deal { c, .. } => vec![c],
            Self::Linear { scale, fee, .. } => vec![scale, fee],
            _ => vec![],
        }
    }

    /// The rows that the call names, the factor rows that a session remembers aside.
    pub fn rows(&self) -> Vec<usize> {
        let triple = |first: usize| [first, first.saturating_add(1), first.saturating_add(2)];
        match *self {
            Self::NewSession { .. } | Self::NewDealers | Self::Turn => vec![],
            Self::SetCallers { ref line } | Self::PlaceLine { ref line, .. } => {
                row_of(line).into_iter().collect()
            }
            Self::LoadRow { row, .. }
            | Self::Deal { row, .. }
            | Self::OpeningMessage { row, .. }
            | Self::Open { row, .. } => vec![row],
            Self::LoadTriple { first, .. }
            | Self::OpenMasks { first, .. }
            | Self::Multiply { first } => triple(first).to_vec(),
            Self::Linear { dest, a, b, .. } => vec![dest, a, b],
            Self::Masks { a, b, first, .. } => [&[a, b], &triple(first)[..]].concat(),
            Self::RelationMasks { ref terms, .. } => rows_of(terms),
            Self::RelationFinish { ref terms, dest, .. } => [&[dest], &rows_of(terms)[..]].concat(),
        }
    }
}

/// The row that an `A` or a `D` line names.
fn row_of(line: &[u8]) -> Option<usize> {
    let field = line.split(|&byte| byte == b',').nth(1)?;
    std::str::from_utf8(field).ok()?.parse().ok()
}

/// The rows that a relation's terms name; a triple that isn't looked at is named too.
fn rows_of(terms: &[Term]) -> Vec<usize> {
    let rows = |term: &Term| {
        let third = term.first.saturating_add(2);
        [term.row, term.second, term.first, term.first.saturating_add(1), third]
    };
    terms.iter().flat_map(rows).collect()
}

/// The most numbers of a list to be filled: a triple for 255 posts, 3 × 255 × 1,274, has fewer.
const LONGEST: usize = 1_000_000;

/// A list of `length` numbers, no two alike, none an element, so that every write is seen.
pub fn unwritten(length: usize) -> Vec<u32> {
    (0..length.min(LONGEST)).map(|place| 0xC0DE_0000 + place as u32).collect()
}
