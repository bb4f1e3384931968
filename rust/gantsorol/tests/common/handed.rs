//! Sessions, answers and terms of the second implementation as the library's, and back.

use gantsorol::{Refusal, Session, Term, SET_LEN};
use reference::{Answer, Barred, Written};

pub fn given(s: reference::Session) -> Session {
    let reference::Session { n, t, post, k, point, second, marks, left, right, y, y2, barred } = s;
    let session = Session { n, t, post, points: k, first: point, second, ..Session::default() };
    let barred = std::array::from_fn(|place| barred[place / SET_LEN].0[place % SET_LEN]);
    Session { marks, factor_a: left, factor_b: right, y_a: y, y_b: y2, barred, ..session }
}

pub fn answered(answer: gantsorol::Answer) -> Answer {
    let gantsorol::Answer { refusal, value, session } = answer;
    let Session { n, t, post, points: k, first: point, second, marks, .. } = session;
    let Session { factor_a: left, factor_b: right, y_a: y, y_b: y2, .. } = session;
    let barred = |row| Barred(std::array::from_fn(|word| session.barred[SET_LEN * row + word]));
    let barred = std::array::from_fn(barred);
    let session =
        reference::Session { n, t, post, k, point, second, marks, left, right, y, y2, barred };
    Answer { refusal, value, session }
}

/// A term's rows are bytes here, as C has them: a row above 255 is told as another that gets 6.
pub fn told(terms: &[reference::Term]) -> Vec<Term> {
    let byte = |row: usize| u8::try_from(row).unwrap_or(254);
    let term = |&reference::Term { coefficient, row, second, first }: &reference::Term| Term {
        coefficient,
        row: byte(row),
        second: byte(second),
        first: byte(first),
    };
    terms.iter().map(term).collect()
}

pub fn number_of(refused: Result<(), Refusal>) -> u8 {
    refused.err().map_or(0, Refusal::number)
}

pub fn written(gantsorol::Written { refusal, len }: gantsorol::Written) -> Written {
    Written { refusal, length: len }
}
