//! The numbers of "Where each refusal is checked".

/// Why a call refused. "Order of checks is the order of numbers", but for the numbers that document
/// 02 adds, which say themselves where they stand.
#[derive(Clone, Copy, Debug, PartialEq, Eq)]
#[repr(u8)]
pub enum Refusal {
    /// n outside 2..255
    Posts = 1,
    /// t outside 1..n − 1
    Threshold = 2,
    /// own post, or the post of a line to be written, outside 1..n
    Post = 3,
    /// a check point is 0 or at least p; a number of points other than 1 or 2
    CheckPoint = 4,
    /// a length isn't exactly the one stated
    Length = 5,
    /// row above 95, or a triple's first above 93
    Row = 6,
    /// a mark, or remembered factor row, isn't what the call needs
    Mark = 7,
    /// a scalar, or a number the call reads in a list, is at least p; a record's mark is above 1
    Number = 8,
    /// fewer than t+1 accepted, in either record of a finish
    TooFew = 9,
    /// wrong form: letter, field count, digits, no final line feed
    Form = 10,
    /// element at least p, row above 95 (a triple's first above 93), post outside 1..n
    Range = 11,
    /// the lent part is shorter than the line
    Space = 12,
    /// an accepted share lies off the polynomial, in either record of a finish; after 9
    Disagreement = 13,
    /// a relation of no terms or of more than 32; after 5
    Terms = 14,
    /// an opening message for a post that may not call for it; after 8
    Caller = 15,
    /// a dealer, or the last dealer, outside 1..8, or a place over 16 bytes; after 5
    Dealer = 16,
    /// a line for a place still filled; after 16
    Filled = 17,
    /// a list of posts that isn't rising or leaves 1..n; after 8
    PostList = 18,
    /// more than t posts when the secrets differ; after 18
    TooManyPosts = 19,
}

impl Refusal {
    /// The number of this refusal in the papers.
    pub const fn number(self) -> u8 {
        self as u8
    }
}

/// `refusal` unless the condition holds.
pub(crate) fn require(condition: bool, refusal: Refusal) -> Result<(), Refusal> {
    if condition {
        Ok(())
    } else {
        Err(refusal)
    }
}

/// The number of a check's outcome: 0 for none.
pub(crate) fn number_of(outcome: Result<(), Refusal>) -> u8 {
    outcome.map_or_else(Refusal::number, |()| 0)
}
