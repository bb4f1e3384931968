//! The library as a trait, one method for each call, so that two implementations can be compared.

mod reference;

use crate::lines::{ReadLine, Written};
use crate::relation::Term;
use crate::session::{Answer, Session};
pub use reference::{Reference, REFERENCE};

/// Every call of both papers. All methods are total: no argument makes them panic.
///
/// Lists are lent; a refused call leaves every one of them as it was, but for a turn whose line is
/// taken.
pub trait Library {
    /// A new session with k check points, of which `second` is the second one where k is 2; refused,
    /// one with 0 in every field.
    fn new_session(
        &self,
        n: usize,
        t: usize,
        post: usize,
        k: usize,
        point: u32,
        second: u32,
    ) -> Answer;

    /// Loads a post's part of a drawn row into an empty row.
    fn load_row(&self, s: Session, rows: &mut [u32], row: usize, pack: &[u32]) -> Answer;

    /// Loads a post's three rows of a triple into three empty rows.
    fn load_triple(&self, s: Session, rows: &mut [u32], first: usize, pack: &[u32]) -> Answer;

    /// Adds the dealer's number to a raw row, which becomes held.
    fn deal(&self, s: Session, rows: &mut [u32], row: usize, c: u32) -> Answer;

    /// The k t + 1 coefficients of a held row, for a post that calls for them.
    fn opening_message(
        &self,
        s: Session,
        rows: &[u32],
        row: usize,
        caller: usize,
        out: &mut [u32],
    ) -> Answer;

    /// Reads an `A` line: who may call for the opening of a raw row.
    fn set_callers(&self, s: Session, line: &[u8]) -> Answer;

    /// A new state of the dealers, in 137 bytes; the refusal.
    fn new_dealers(&self, dealers: &mut [u8]) -> u8;

    /// Puts a dealer's line into its place; the refusal.
    fn place_line(&self, dealers: &mut [u8], dealer: usize, line: &[u8]) -> u8;

    /// Takes the next dealer's line and deals it. Refused once it is taken, the line is gone.
    fn turn(&self, s: Session, rows: &mut [u32], dealers: &mut [u8]) -> Answer;

    /// Opens a held row with a record of n blocks.
    fn open(&self, s: Session, rows: &[u32], row: usize, record: &[u32]) -> Answer;

    /// a plus scale times b plus a public fee into an empty row.
    fn linear(
        &self,
        s: Session,
        rows: &mut [u32],
        dest: usize,
        a: usize,
        b: usize,
        scale: u32,
        fee: u32,
    ) -> Answer;

    /// The 2(k t + 1) mask coefficients for the product of a and b.
    fn masks(
        &self,
        s: Session,
        rows: &[u32],
        a: usize,
        b: usize,
        first: usize,
        out: &mut [u32],
    ) -> Answer;

    /// The first call of a finish: opens both masks and remembers the numbers.
    fn open_masks(
        &self,
        s: Session,
        rows: &[u32],
        first: usize,
        record: &[u32],
        record2: &[u32],
    ) -> Answer;

    /// The second call of a finish: writes the product into the triple's third row.
    fn multiply(&self, s: Session, rows: &mut [u32], first: usize) -> Answer;

    /// The masks of all product terms of a relation, 2(k t + 1) numbers for each.
    fn relation_masks(&self, s: Session, rows: &[u32], terms: &[Term], out: &mut [u32]) -> Answer;

    /// Finishes all product terms of a relation with two records for each, and stores the sum of
    /// the terms in an empty row.
    fn relation_finish(
        &self,
        s: Session,
        rows: &mut [u32],
        terms: &[Term],
        records: &[u32],
        dest: usize,
    ) -> Answer;

    /// One row for all posts from its draw and k check points for each post; the refusal.
    fn factory_row(
        &self,
        n: usize,
        t: usize,
        k: usize,
        points: &[u32],
        draw: &[u32],
        out: &mut [u32],
    ) -> u8;

    /// One triple for all posts from its draw; the refusal.
    fn factory_triple(
        &self,
        n: usize,
        t: usize,
        k: usize,
        points: &[u32],
        draw: &[u32],
        out: &mut [u32],
    ) -> u8;

    /// The refusal and c = u − f(0).
    fn dealer_number(&self, u: u32, f0: u32) -> (u8, u32);

    /// Writes a `D` line.
    fn write_deal(&self, n: usize, t: usize, row: usize, c: u32, out: &mut [u8]) -> Written;

    /// Writes an `O` line.
    fn write_opening(
        &self,
        n: usize,
        t: usize,
        k: usize,
        row: usize,
        post: usize,
        coefficients: &[u32],
        out: &mut [u8],
    ) -> Written;

    /// Writes an `M` line.
    fn write_masks(
        &self,
        n: usize,
        t: usize,
        k: usize,
        first: usize,
        post: usize,
        numbers: &[u32],
        out: &mut [u8],
    ) -> Written;

    /// Reads a line into a list of 2(k t + 1) numbers.
    fn read(&self, n: usize, t: usize, k: usize, line: &[u8], out: &mut [u32]) -> ReadLine;

    /// Writes a post's pack file.
    fn write_pack(
        &self,
        n: usize,
        t: usize,
        k: usize,
        post: usize,
        points: &[u32],
        kinds: &[u8],
        draws: &[u32],
        out: &mut [u8],
    ) -> Written;

    /// The draw behind another secret that shows the listed posts the same; the refusal.
    fn other_draw(
        &self,
        n: usize,
        t: usize,
        k: usize,
        points: &[u32],
        draw: &[u32],
        secret: u32,
        wanted: u32,
        posts: &[usize],
        out: &mut [u32],
    ) -> u8;

    /// The street program, from its input to its output.
    fn street(&self, input: &[u8]) -> Vec<u8>;
}
