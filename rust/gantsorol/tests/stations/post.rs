//! One post, which makes calls through the binding.

use gantsorol::{Refusal, Session};

/// One post between two calls.
pub struct Post {
    session: Option<Session>,
    rows: Vec<u32>,
}

impl Post {
    pub fn new(session: Session, rows: Vec<u32>) -> Self {
        Self { session: Some(session), rows }
    }

    /// Makes a call, which must be accepted; the number opened.
    pub fn call(&mut self, call: impl FnOnce(Session, &mut [u32]) -> gantsorol::Answer) -> u32 {
        let session = self.session.take().expect("every call hands the session back");
        let (session, value) = call(session, &mut self.rows).accepted().expect("a valid call");
        self.session = Some(session);
        value
    }

    /// The answer to a record, the post being left as it is.
    pub fn try_open(&self, row: usize, record: &[u32]) -> Result<u32, Refusal> {
        let session = self.session.clone().expect("every call hands the session back");
        session.open(&self.rows, row, record).accepted().map(|(_, value)| value)
    }

    /// Finishes a product; refused, the post is as it was.
    pub fn finish(&mut self, first: usize, [left, right]: &[Vec<u32>; 2]) -> Result<(), Refusal> {
        let session = self.session.take().expect("every call hands the session back");
        let before = (session.clone(), self.rows.clone());
        let answer = session.collect(&self.rows, first, left, right);
        assert_eq!((answer.value, &self.rows), (0, &before.1));
        if answer.refusal != 0 {
            assert_eq!(answer.session, before.0);
            self.session = Some(before.0);
            return answer.accepted().map(|_| ());
        }
        let again = answer.session.clone().collect(&self.rows, first, left, right);
        assert_eq!(again.accepted(), Err(Refusal::WrongMark));
        self.session = Some(answer.session);
        assert_eq!(self.call(|session, rows| session.multiply(rows, first)), 0);
        Ok(())
    }
}
