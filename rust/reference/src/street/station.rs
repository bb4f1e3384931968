//! A started session of the street program.

use super::fields::{
    elements_in_range, first_field, plain_numbers, row_in_range, saturated, triple_in_range, Start,
};
use super::kept::Kept;
use super::{Reply, LONGEST_LINE, STREET_POSTS};
use crate::callers::try_set_callers;
use crate::calls::{try_deal, try_linear, try_load_row, try_load_triple};
use crate::lines::{try_read, try_write_masks, ReadLine};
use crate::opening::try_open;
use crate::product::{try_masks, try_multiply, try_open_masks, Product};
use crate::refusal::{require, Refusal};
use crate::session::Session;
use crate::shape::Shape;

/// A started session, with its rows and the lines kept.
pub(super) struct Station<const P: u32> {
    shape: Shape,
    session: Session,
    rows: Vec<u32>,
    openings: Kept<1>,
    masks: Kept<2>,
}

impl<const P: u32> Station<P> {
    /// "An `S` gets 10, then 1 to 4", and a `W` "by all the rules of an `S`".
    pub(super) fn start(line: &[u8]) -> Result<Self, Refusal> {
        let Start { n, t, post, points } = Start::parse(line).ok_or(Refusal::Form)?;
        require(n <= STREET_POSTS as u64, Refusal::Posts)?;
        // What doesn't fit is no check point, as 0 isn't.
        let narrowed = |point: &u64| u32::try_from(*point).unwrap_or(0);
        let session = Session {
            n: saturated(n),
            t: saturated(t),
            post: saturated(post),
            k: points.len(),
            point: points.first().map_or(0, narrowed),
            second: points.get(1).map_or(0, narrowed),
            ..Session::BLANK
        };
        let shape = session.checked::<P>()?;
        Ok(Self {
            shape,
            session,
            rows: vec![0; shape.all_rows()],
            openings: Kept::new(shape),
            masks: Kept::new(shape),
        })
    }

    pub(super) fn state(&self) -> (Session, &[u32]) {
        (self.session, &self.rows)
    }

    /// "Other lines get 10, then 11, then what the call answers."
    pub(super) fn line(&mut self, line: &[u8]) -> Result<Reply, Refusal> {
        match first_field(line) {
            b"R" => self.raw_row(line),
            b"T" => self.triple(line),
            b"D" => self.deal(line),
            b"A" => self.set_callers(line),
            b"O" => self.opening(line),
            b"G" => self.open(line),
            b"L" => self.linear(line),
            b"X" => self.make_masks(line),
            b"M" => self.mask_line(line),
            b"F" => self.finish(line),
            _ => Err(Refusal::Form),
        }
    }

    /// `R,row,` and a raw row's numbers.
    fn raw_row(&mut self, line: &[u8]) -> Result<Reply, Refusal> {
        let fields = plain_numbers(line, 1 + self.shape.row())?;
        let row = row_in_range(fields[0])?;
        let pack = elements_in_range::<P>(&fields[1..])?;
        let loaded = try_load_row::<P>(self.session, &mut self.rows, row, &pack)?;
        self.take(loaded)
    }

    /// "`T,first,` and a triple's three rows of numbers".
    fn triple(&mut self, line: &[u8]) -> Result<Reply, Refusal> {
        let fields = plain_numbers(line, 1 + self.shape.triple())?;
        let first = triple_in_range(fields[0])?;
        let pack = elements_in_range::<P>(&fields[1..])?;
        let loaded = try_load_triple::<P>(self.session, &mut self.rows, first, &pack)?;
        self.take(loaded)
    }

    fn deal(&mut self, line: &[u8]) -> Result<Reply, Refusal> {
        let (read, elements) = self.broadcast_line(line)?;
        let dealt = try_deal::<P>(self.session, &mut self.rows, read.row, elements[0])?;
        self.take(dealt)
    }

    /// `A,row,` and rising post numbers.
    fn set_callers(&mut self, line: &[u8]) -> Result<Reply, Refusal> {
        let set = try_set_callers::<P>(self.session, line)?;
        self.take(set)
    }

    /// An `O` line is kept, whatever its row's mark is.
    fn opening(&mut self, line: &[u8]) -> Result<Reply, Refusal> {
        let (read, elements) = self.broadcast_line(line)?;
        self.openings.keep(read.row, read.post, &elements);
        Ok(Reply::default())
    }

    /// `G,row`, "which opens the row". "G leaves the record as it is."
    fn open(&mut self, line: &[u8]) -> Result<Reply, Refusal> {
        let fields = plain_numbers(line, 1)?;
        let row = row_in_range(fields[0])?;
        let [record] = self.openings.records(row);
        let opened = try_open::<P>(self.session, &self.rows, row, &record)?;
        self.take(opened)
    }

    /// `L,dest,a,b,s,fee`.
    fn linear(&mut self, line: &[u8]) -> Result<Reply, Refusal> {
        let fields = plain_numbers(line, 5)?;
        let dest = row_in_range(fields[0])?;
        let factors = (row_in_range(fields[1])?, row_in_range(fields[2])?);
        let elements = elements_in_range::<P>(&fields[3..])?;
        let public = (elements[0], elements[1]);
        let summed = try_linear::<P>(self.session, &mut self.rows, dest, factors, public)?;
        self.take(summed)
    }

    /// "`X,a,b,first`, which makes the masks", and prints them.
    fn make_masks(&mut self, line: &[u8]) -> Result<Reply, Refusal> {
        let fields = plain_numbers(line, 3)?;
        let (a, b) = (row_in_range(fields[0])?, row_in_range(fields[1])?);
        let first = triple_in_range(fields[2])?;
        let product = Product { a, b, first };
        let mut numbers = vec![0; self.shape.masks()];
        let masked = try_masks::<P>(self.session, &self.rows, product, &mut numbers)?;
        let line = self.mask_line_of(first, &numbers)?;
        Ok(Reply { line, ..self.take(masked)? })
    }

    /// The post's own `M` line.
    fn mask_line_of(&self, first: usize, numbers: &[u32]) -> Result<Vec<u8>, Refusal> {
        let Session { n, t, k, post, .. } = self.session;
        let mut part = vec![0; LONGEST_LINE];
        let length = try_write_masks::<P>((n, t, k), first, post, numbers, &mut part)?;
        part.truncate(length);
        Ok(part)
    }

    /// An `M` line is kept, whatever its triple's marks are.
    fn mask_line(&mut self, line: &[u8]) -> Result<Reply, Refusal> {
        let (read, elements) = self.broadcast_line(line)?;
        self.masks.keep(read.row, read.post, &elements);
        Ok(Reply::default())
    }

    /// "`F,first`, which finishes" by the pair of calls, and leaves the records as they are. It answers
    /// the first refusal of the two, and a refused one changes nothing.
    fn finish(&mut self, line: &[u8]) -> Result<Reply, Refusal> {
        let fields = plain_numbers(line, 1)?;
        let first = triple_in_range(fields[0])?;
        let [left, right] = self.masks.records(first);
        let (_, opened) = try_open_masks::<P>(self.session, &self.rows, first, [&left, &right])?;
        let multiplied = try_multiply::<P>(opened, &mut self.rows, first)?;
        self.take(multiplied)
    }

    /// A `D`, `O` or `M` line, with a list of its elements.
    fn broadcast_line(&self, line: &[u8]) -> Result<(ReadLine, Vec<u32>), Refusal> {
        let mut elements = vec![0; self.shape.masks()];
        let Session { n, t, k, .. } = self.session;
        let read = try_read::<P>((n, t, k), line, &mut elements)?;
        Ok((read, elements))
    }

    /// Keeps the session that a call handed back; the call's value is printed.
    fn take(&mut self, (value, session): (u32, Session)) -> Result<Reply, Refusal> {
        self.session = session;
        Ok(Reply { value, line: vec![] })
    }
}
