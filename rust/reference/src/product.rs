//! Multiplication with factory triples (DOTMP): masks, then the two calls of a finish.

use crate::field::{expect_elements, Element};
use crate::opening::{Accepted, Record};
use crate::refusal::Refusal;
use crate::row::{minus, weighted_sum};
use crate::session::{mark, Answer, Session};
use crate::shape::{expect_length, expect_row, expect_triple, Shape};

/// The marks of a triple that no masks were sent for.
pub(crate) const UNUSED: [u8; 3] = [mark::UNUSED, mark::FOLLOWING, mark::FOLLOWING];

/// The marks of a triple whose masks were sent.
pub(crate) const MASKED: [u8; 3] = [mark::MASKED, mark::FOLLOWING, mark::FOLLOWING];

/// The marks of a triple whose masks were opened.
const OPENED: [u8; 3] = [mark::OPENED, mark::FOLLOWING, mark::FOLLOWING];

/// Two factor rows, and the first row of the triple that multiplies them.
#[derive(Clone, Copy)]
pub(crate) struct Product {
    pub(crate) a: usize,
    pub(crate) b: usize,
    pub(crate) first: usize,
}

impl Product {
    /// The product that a triple's masks were sent for. Check 7: a remembered factor row is at most
    /// 95, and still held.
    fn remembered(s: &Session, first: usize) -> Result<Self, Refusal> {
        let [a, b] = [s.left[first], s.right[first]].map(usize::from);
        for row in [a, b] {
            expect_row(row).map_err(|_| Refusal::Mark)?;
            s.expect_mark(row, mark::HELD)?;
        }
        Ok(Self { a, b, first })
    }

    /// Whether this is the product that its triple's masks were sent for.
    pub(crate) fn is_remembered(self, s: &Session) -> bool {
        (usize::from(s.left[self.first]), usize::from(s.right[self.first])) == (self.a, self.b)
    }

    /// "The polynomials of a − l and of b − l'", into twice the numbers of a message.
    pub(crate) fn write_masks<const P: u32>(self, shape: Shape, rows: &[u32], out: &mut [u32]) {
        let parts = out.chunks_exact_mut(shape.coefficients());
        for (part, difference) in parts.zip(self.differences::<P>(shape, rows)) {
            part.copy_from_slice(&difference[shape.polynomial()]);
        }
    }

    /// The rows a − l and b − l'.
    fn differences<const P: u32>(self, shape: Shape, rows: &[u32]) -> [Vec<u32>; 2] {
        [(self.a, self.first), (self.b, self.first + 1)]
            .map(|(factor, pad)| minus::<P>(shape, &rows[shape.at(factor)], &rows[shape.at(pad)]))
    }

    /// "The triple's first mark becomes 5, and a and b are remembered." Both rows are at most 95.
    pub(crate) fn masked(self, s: Session) -> Session {
        let mut masked = s.with_mark(self.first, mark::MASKED);
        masked.left[self.first] = self.a as u8;
        masked.right[self.first] = self.b as u8;
        masked
    }

    /// Check 9 for the openings of y = a − l and y' = b − l'.
    pub(crate) fn accepted<const P: u32>(
        self,
        shape: Shape,
        s: &Session,
        rows: &[u32],
        [left, right]: [Record; 2],
    ) -> Result<[Accepted<P>; 2], Refusal> {
        let [y, y2] = self.differences::<P>(shape, rows);
        let left = Accepted::checked(shape, s, &y, left)?;
        Ok([left, Accepted::checked(shape, s, &y2, right)?])
    }

    /// The session that remembers y and y'.
    pub(crate) fn opened<const P: u32>(
        self,
        s: Session,
        (y, y2): (Element<P>, Element<P>),
    ) -> Session {
        let mut opened = s.with_mark(self.first, mark::OPENED);
        opened.y[self.first] = y.value();
        opened.y2[self.first] = y2.value();
        opened
    }

    /// "l'' + y l' + y' l + y y' (y y' is added to m1..mn only)" into the third row, with the numbers
    /// remembered: the sum of rows twice, with y y' as the second one's fee. The third row has the
    /// posts that its factor rows share.
    pub(crate) fn write<const P: u32>(self, shape: Shape, s: Session, rows: &mut [u32]) -> Session {
        let Self { a, b, first } = self;
        let (y, y2) = (Element::<P>::from(s.y[first]), Element::from(s.y2[first]));
        let [l, l2, l3] = [first, first + 1, first + 2].map(|row| &rows[shape.at(row)]);
        let sum = weighted_sum(shape, l3, y, l2, Element::ZERO);
        let product = weighted_sum(shape, &sum, y2, l, y * y2);
        rows[shape.at(first + 2)].copy_from_slice(&product);
        let done = [mark::SPENT, mark::SPENT, mark::HELD];
        s.with_marks(first, done).made_from(first + 2, [a, b])
    }
}

/// "For held a and b (perhaps the same) and an unused triple (marks 3, 4, 4): the polynomials of
/// a − l and of b − l'", into a lent list.
pub fn masks<const P: u32>(
    s: Session,
    rows: &[u32],
    a: usize,
    b: usize,
    first: usize,
    out: &mut [u32],
) -> Answer {
    s.answer(try_masks::<P>(s, rows, Product { a, b, first }, out))
}

pub(crate) fn try_masks<const P: u32>(
    s: Session,
    rows: &[u32],
    product: Product,
    out: &mut [u32],
) -> Result<(u32, Session), Refusal> {
    let shape = s.checked::<P>()?;
    expect_length(rows, shape.all_rows())?;
    expect_length(out, shape.masks())?;
    let Product { a, b, first } = product;
    expect_row(a)?;
    expect_row(b)?;
    expect_triple(first)?;
    s.expect_mark(a, mark::HELD)?;
    s.expect_mark(b, mark::HELD)?;
    s.expect_marks(first, UNUSED)?;
    for row in [a, b, first, first + 1] {
        expect_elements::<P>(&rows[shape.at(row)])?;
    }
    product.write_masks::<P>(shape, rows, out);
    Ok((0, product.masked(s)))
}

/// "Finish becomes two calls." The first "takes a triple marked 5, 4, 4 and two records", "opens y and
/// y' and remembers them; the triple's first row then has mark 7".
pub fn open_masks<const P: u32>(
    s: Session,
    rows: &[u32],
    first: usize,
    record: &[u32],
    record2: &[u32],
) -> Answer {
    s.answer(try_open_masks::<P>(s, rows, first, [record, record2]))
}

pub(crate) fn try_open_masks<const P: u32>(
    s: Session,
    rows: &[u32],
    first: usize,
    [left, right]: [&[u32]; 2],
) -> Result<(u32, Session), Refusal> {
    let shape = s.checked::<P>()?;
    expect_length(rows, shape.all_rows())?;
    let left = Record::checked_length(shape, left)?;
    let right = Record::checked_length(shape, right)?;
    expect_triple(first)?;
    s.expect_marks(first, MASKED)?;
    let product = Product::remembered(&s, first)?;
    for row in [product.a, product.b, first, first + 1] {
        expect_elements::<P>(&rows[shape.at(row)])?;
    }
    left.expect_numbers::<P>(s.post)?;
    right.expect_numbers::<P>(s.post)?;
    // 9 "in either record of a finish", then 13 "in either record".
    let [left, right] = product.accepted::<P>(shape, &s, rows, [left, right])?;
    let numbers = (left.number()?, right.number()?);
    Ok((0, product.opened(s, numbers)))
}

/// "The second takes only the triple and writes the product." "After both calls" the marks are "6, 6,
/// 2".
pub fn multiply<const P: u32>(s: Session, rows: &mut [u32], first: usize) -> Answer {
    s.answer(try_multiply::<P>(s, rows, first))
}

pub(crate) fn try_multiply<const P: u32>(
    s: Session,
    rows: &mut [u32],
    first: usize,
) -> Result<(u32, Session), Refusal> {
    let shape = s.checked::<P>()?;
    expect_length(rows, shape.all_rows())?;
    expect_triple(first)?;
    s.expect_marks(first, OPENED)?;
    // "A finish's second call gives 7 unless they are held": its factor rows.
    let product = Product::remembered(&s, first)?;
    // "One at least p gets 8."
    expect_elements::<P>(&[s.y[first], s.y2[first]])?;
    for row in [first, first + 1, first + 2] {
        expect_elements::<P>(&rows[shape.at(row)])?;
    }
    Ok((0, product.write::<P>(shape, s, rows)))
}
