//! The numbers n, t and k, and every length that follows from them.

use std::ops::Range;

use crate::refusal::{require, Refusal};

/// "n goes to 255 in the library."
pub const MAX_POSTS: usize = 255;

/// "A session has 96 rows, 0 to 95."
pub const ROWS: usize = 96;

/// The rows of a triple: l, l' and l''.
pub const TRIPLE: usize = 3;

/// "Two check points a post, beside one."
pub const MAX_POINTS: usize = 2;

/// Checked numbers n, t and k: n is 2 to 255, t is 1 to n − 1, and k, "the number of points, 1 or 2",
/// is how many check points each post has.
#[derive(Clone, Copy, Debug, PartialEq, Eq)]
pub struct Shape {
    n: usize,
    t: usize,
    k: usize,
}

impl Shape {
    /// Checks 1 and 2, and 4 for "a number of points other than 1 or 2".
    pub fn checked(n: usize, t: usize, k: usize) -> Result<Self, Refusal> {
        expect_posts(n, t)?;
        require((1..=MAX_POINTS).contains(&k), Refusal::CheckPoint)?;
        Ok(Self { n, t, k })
    }

    /// The same with check 3 in its place: a post is "numbered 1 to n".
    pub fn checked_at(n: usize, t: usize, post: usize, k: usize) -> Result<Self, Refusal> {
        expect_posts(n, t)?;
        require((1..=n).contains(&post), Refusal::Post)?;
        Self::checked(n, t, k)
    }

    /// n, the number of posts.
    pub const fn posts(self) -> usize {
        self.n
    }

    /// t, the posts that learn nothing.
    pub const fn threshold(self) -> usize {
        self.t
    }

    /// k, the number of check points of each post.
    pub const fn points(self) -> usize {
        self.k
    }

    /// All posts' check points: "both points of each post" follow one another.
    pub const fn all_points(self) -> usize {
        self.k * self.n
    }

    /// The check points of `post`, 1 to n, among all posts'.
    pub fn points_of(self, points: &[u32], post: usize) -> &[u32] {
        &points[(post - 1) * self.k..][..self.k]
    }

    /// t+1, the shares that an opening needs.
    pub const fn shares_needed(self) -> usize {
        self.t + 1
    }

    /// t+1, the coefficients of f.
    pub const fn dealer_coefficients(self) -> usize {
        self.t + 1
    }

    /// k t + 1, the coefficients of each of v1 to vn, and so of a message: "a group of t posts then
    /// sees 2t points of a polynomial, so v1..vn have 2t+1 coefficients while f keeps t+1".
    pub const fn coefficients(self) -> usize {
        self.k * self.t + 1
    }

    /// t+1+2n, or "2t+1+3n numbers": the numbers of a row.
    pub const fn row(self) -> usize {
        self.coefficients() + self.k * self.n + self.n
    }

    /// Where in a row the coefficients of its own polynomial stand.
    pub const fn polynomial(self) -> Range<usize> {
        0..self.coefficients()
    }

    /// Where in a row the check values v1(wi) to vn(wi) stand: "both check values of each sender
    /// follow one another".
    pub const fn check_values(self) -> Range<usize> {
        self.coefficients()..self.coefficients() + self.k * self.n
    }

    /// Where in a row the public sums m1 to mn stand.
    pub const fn sums(self) -> Range<usize> {
        self.row() - self.n..self.row()
    }

    /// 96 rows, the numbers of a session's rows.
    pub const fn all_rows(self) -> usize {
        ROWS * self.row()
    }

    /// Where row `row`, at most 95, stands in a session's rows.
    pub const fn at(self, row: usize) -> Range<usize> {
        row * self.row()..(row + 1) * self.row()
    }

    /// The numbers of one post's part of a triple: three rows.
    pub const fn triple(self) -> usize {
        TRIPLE * self.row()
    }

    /// The draw of a row: f, then v1 to vn.
    pub const fn row_draw(self) -> usize {
        self.dealer_coefficients() + self.n * self.coefficients()
    }

    /// The draw of a triple: "three such draws", the third without f's constant.
    pub const fn triple_draw(self) -> usize {
        TRIPLE * self.row_draw() - 1
    }

    /// All posts' parts of one row.
    pub const fn row_packs(self) -> usize {
        self.n * self.row()
    }

    /// A record's block: a mark and the coefficients.
    pub const fn block(self) -> usize {
        1 + self.coefficients()
    }

    /// A record: n blocks.
    pub const fn record(self) -> usize {
        self.n * self.block()
    }

    /// Twice a message, the numbers of the masks, and of the list that a line read fills.
    pub const fn masks(self) -> usize {
        2 * self.coefficients()
    }
}

/// Checks 1 and 2.
pub(crate) fn expect_posts(n: usize, t: usize) -> Result<(), Refusal> {
    require((2..=MAX_POSTS).contains(&n), Refusal::Posts)?;
    require((1..n).contains(&t), Refusal::Threshold)
}

/// Check 5 for one lent list.
pub(crate) fn expect_length<T>(list: &[T], length: usize) -> Result<(), Refusal> {
    require(list.len() == length, Refusal::Length)
}

/// Check 6 for a row.
pub(crate) fn expect_row(row: usize) -> Result<(), Refusal> {
    require(row < ROWS, Refusal::Row)
}

/// Check 6 for a triple's first row, "r at most 93".
pub(crate) fn expect_triple(first: usize) -> Result<(), Refusal> {
    require(first <= ROWS - TRIPLE, Refusal::Row)
}
