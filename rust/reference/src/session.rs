//! The session that a post keeps, and the checks that every call makes on it.

use crate::callers::Barred;
use crate::refusal::{require, Refusal};
use crate::shape::{Shape, ROWS};

/// "Each row has a mark."
pub mod mark {
    /// Empty.
    pub const EMPTY: u8 = 0;
    /// Raw: random, not dealt.
    pub const RAW: u8 = 1;
    /// Held.
    pub const HELD: u8 = 2;
    /// First row of an unused triple.
    pub const UNUSED: u8 = 3;
    /// Second or third row of a triple.
    pub const FOLLOWING: u8 = 4;
    /// First row of a triple whose masks were sent.
    pub const MASKED: u8 = 5;
    /// Spent.
    pub const SPENT: u8 = 6;
    /// First row of a triple whose masks were opened.
    pub const OPENED: u8 = 7;
}

/// "The session remembers n, t, post, check point, the marks, and for mark 5 the two factor rows";
/// for mark 7 "the two numbers" of the masks; for each row "a set of posts that may call for its
/// opening", kept as those that may not.
///
/// The fields may hold anything; each call checks them anew.
#[derive(Clone, Copy, Debug, PartialEq, Eq)]
pub struct Session {
    /// The number of posts.
    pub n: usize,
    /// The threshold: t posts learn nothing, t+1 open.
    pub t: usize,
    /// This post's number, from 1.
    pub post: usize,
    /// The number of its check points, 1 or 2.
    pub k: usize,
    /// This post's first check point.
    pub point: u32,
    /// Its second one; with one point 0, and not looked at.
    pub second: u32,
    /// The mark of each row.
    pub marks: [u8; ROWS],
    /// At a triple's first row: the first factor row, "0 before the masks, kept after the finish".
    pub left: [u8; ROWS],
    /// At a triple's first row: the second factor row.
    pub right: [u8; ROWS],
    /// At a triple's first row: y = a − l, "0 when new and kept after the product".
    pub y: [u32; ROWS],
    /// At a triple's first row: y' = b − l'.
    pub y2: [u32; ROWS],
    /// For each row, who may not call for its opening.
    pub barred: [Barred; ROWS],
}

impl Session {
    /// "A refused new session has 0 in every field."
    pub const BLANK: Self = Self {
        n: 0,
        t: 0,
        post: 0,
        k: 0,
        point: 0,
        second: 0,
        marks: [mark::EMPTY; ROWS],
        left: [0; ROWS],
        right: [0; ROWS],
        y: [0; ROWS],
        y2: [0; ROWS],
        barred: [Barred::NOBODY; ROWS],
    };

    /// Checks 1 to 4.
    pub(crate) fn checked<const P: u32>(&self) -> Result<Shape, Refusal> {
        let shape = Shape::checked_at(self.n, self.t, self.post, self.k)?;
        self.points(shape).into_iter().try_for_each(expect_check_point::<P>)?;
        Ok(shape)
    }

    /// The post's one or two check points.
    pub(crate) fn points(&self, shape: Shape) -> Vec<u32> {
        [self.point, self.second][..shape.points()].to_vec()
    }

    /// Check 7: row `row`, at most 95, has the mark `mark`.
    pub(crate) fn expect_mark(&self, row: usize, mark: u8) -> Result<(), Refusal> {
        require(self.marks[row] == mark, Refusal::Mark)
    }

    /// Check 7 for the rows from `first` on.
    pub(crate) fn expect_marks(&self, first: usize, marks: [u8; 3]) -> Result<(), Refusal> {
        require(self.marks[first..].starts_with(&marks), Refusal::Mark)
    }

    /// The session with another mark at row `row`.
    pub(crate) fn with_mark(mut self, row: usize, mark: u8) -> Self {
        self.marks[row] = mark;
        self
    }

    /// The session with other marks from row `first` on.
    pub(crate) fn with_marks(mut self, first: usize, marks: [u8; 3]) -> Self {
        self.marks[first..first + marks.len()].copy_from_slice(&marks);
        self
    }

    /// The session with another set of barred posts for row `row`.
    pub(crate) fn with_barred(mut self, row: usize, barred: Barred) -> Self {
        self.barred[row] = barred;
        self
    }

    /// "A row made from others has the posts that all of them share": row `row` is made from these.
    pub(crate) fn made_from(self, row: usize, others: impl IntoIterator<Item = usize>) -> Self {
        let barred = others.into_iter().map(|other| self.barred[other]);
        self.with_barred(row, barred.fold(Barred::NOBODY, Barred::or))
    }

    /// What a call hands back: the new value and session or, refused, 0 and the old session.
    pub(crate) fn answer(self, outcome: Result<(u32, Self), Refusal>) -> Answer {
        let (refusal, (value, session)) = match outcome {
            Ok(done) => (0, done),
            Err(refusal) => (refusal.number(), (0, self)),
        };
        Answer { refusal, value, session }
    }
}

/// "Calls take the session and hand it back."
#[derive(Clone, Copy, Debug, PartialEq, Eq)]
pub struct Answer {
    /// The refusal, 0 for none.
    pub refusal: u8,
    /// The number opened; 0 when refused and in calls that open nothing.
    pub value: u32,
    /// The session after the call; as it was given when refused.
    pub session: Session,
}

/// Check 4: a check point is "1 to p − 1".
pub(crate) fn expect_check_point<const P: u32>(point: u32) -> Result<(), Refusal> {
    require((1..P).contains(&point), Refusal::CheckPoint)
}

/// "A new session has 96 rows, all with mark 0. A refused new session has 0 in every field."
///
/// `k` is the number of check points; with one of them, `second` is not looked at, and is 0 in the
/// session.
pub fn new_session<const P: u32>(
    n: usize,
    t: usize,
    post: usize,
    k: usize,
    point: u32,
    second: u32,
) -> Answer {
    let second = if k == 1 { 0 } else { second };
    let session = Session { n, t, post, k, point, second, ..Session::BLANK };
    Session::BLANK.answer(session.checked::<P>().map(|_| (0, session)))
}
