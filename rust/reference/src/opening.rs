//! Opening with verification.

use crate::field::{expect_elements, Element};
use crate::polynomial::{evaluate, interpolate};
use crate::refusal::{require, Refusal};
use crate::session::{mark, Answer, Session};
use crate::shape::{expect_length, expect_row, Shape};

/// What a post has heard for one opening: "n blocks, each a mark (0 absent, 1 present) and t+1
/// coefficients", or 2t+1.
#[derive(Clone, Copy)]
pub(crate) struct Record<'a> {
    shape: Shape,
    numbers: &'a [u32],
}

impl<'a> Record<'a> {
    /// Check 5.
    pub(crate) fn checked_length(shape: Shape, numbers: &'a [u32]) -> Result<Self, Refusal> {
        expect_length(numbers, shape.record())?;
        Ok(Self { shape, numbers })
    }

    /// Check 8: "each block's mark and each present block's coefficients except in the post's own
    /// block, also those behind the place where the walk stops".
    pub(crate) fn expect_numbers<const P: u32>(self, own_post: usize) -> Result<(), Refusal> {
        for post in (1..=self.shape.posts()).filter(|&post| post != own_post) {
            require(self.block(post)[0] <= 1, Refusal::Number)?;
            if let Some(coefficients) = self.message(post) {
                expect_elements::<P>(coefficients)?;
            }
        }
        Ok(())
    }

    /// The block of `post`, 1 to n, its mark first.
    fn block(self, post: usize) -> &'a [u32] {
        &self.numbers[(post - 1) * self.shape.block()..][..self.shape.block()]
    }

    /// The coefficients in the block of `post`, when present.
    fn message(self, post: usize) -> Option<&'a [u32]> {
        match self.block(post) {
            [1, coefficients @ ..] => Some(coefficients),
            _ => None,
        }
    }
}

/// A share as a point: (j, mj minus the constant coefficient).
type Share<const P: u32> = (Element<P>, Element<P>);

/// The shares of the accepted posts, of which there are at least t+1.
pub(crate) struct Accepted<const P: u32> {
    /// "The lowest t+1."
    lowest: Vec<Share<P>>,
    /// "Every further accepted share."
    further: Vec<Share<P>>,
}

impl<const P: u32> Accepted<P> {
    /// Check 9, for what a post reads from `row`, its part of the shared number, and from a record.
    /// "From now on the post checks all n."
    pub(crate) fn checked(
        shape: Shape,
        session: &Session,
        row: &[u32],
        record: Record,
    ) -> Result<Self, Refusal> {
        let mut lowest: Vec<Share<P>> = (1..=shape.posts())
            .filter_map(|post| {
                let polynomial = polynomial_of(shape, session, row, record, post)?;
                accepted_share(shape, session, row, post, polynomial)
            })
            .collect();
        require(lowest.len() >= shape.shares_needed(), Refusal::TooFew)?;
        let further = lowest.split_off(shape.shares_needed());
        Ok(Self { lowest, further })
    }

    /// "The number is still interpolated from the lowest t+1, but every further accepted share must
    /// lie on the same polynomial of degree at most t": check 13.
    pub(crate) fn number(&self) -> Result<Element<P>, Refusal> {
        let polynomial = interpolate(&self.lowest);
        let agrees = |&(x, y): &Share<P>| evaluate(&polynomial, x) == y;
        require(self.further.iter().all(agrees), Refusal::Disagreement)?;
        Ok(evaluate(&polynomial, Element::ZERO))
    }
}

/// "For its own number the post takes the coefficients in its own row, otherwise the block of the
/// record."
fn polynomial_of<'a>(
    shape: Shape,
    session: &Session,
    row: &'a [u32],
    record: Record<'a>,
    post: usize,
) -> Option<&'a [u32]> {
    if post == session.post {
        Some(&row[shape.polynomial()])
    } else {
        record.message(post)
    }
}

/// The share of post j, "accepted when its polynomial at wi equals the check value for j"; with two
/// points, "when both values match".
fn accepted_share<const P: u32>(
    shape: Shape,
    session: &Session,
    row: &[u32],
    post: usize,
    polynomial: &[u32],
) -> Option<Share<P>> {
    let k = shape.points();
    let checks = &row[shape.check_values()][(post - 1) * k..][..k];
    let sum: Element<P> = row[shape.sums()][post - 1].into();
    let matches = |(point, &check): (u32, &u32)| {
        evaluate::<P>(polynomial, point.into()) == Element::from(check)
    };
    let accepted = session.points(shape).into_iter().zip(checks).all(matches);
    accepted.then(|| (Element::new(post as u64), sum - polynomial[0].into()))
}

/// "Takes a held row and a record"; the answer's value is the number. "Session and rows don't
/// change."
pub fn open<const P: u32>(s: Session, rows: &[u32], row: usize, record: &[u32]) -> Answer {
    s.answer(try_open::<P>(s, rows, row, record))
}

pub(crate) fn try_open<const P: u32>(
    s: Session,
    rows: &[u32],
    row: usize,
    record: &[u32],
) -> Result<(u32, Session), Refusal> {
    let shape = s.checked::<P>()?;
    expect_length(rows, shape.all_rows())?;
    let record = Record::checked_length(shape, record)?;
    expect_row(row)?;
    s.expect_mark(row, mark::HELD)?;
    let numbers = &rows[shape.at(row)];
    expect_elements::<P>(numbers)?;
    record.expect_numbers::<P>(s.post)?;
    let number = Accepted::<P>::checked(shape, &s, numbers, record)?.number()?;
    Ok((number.value(), s))
}
