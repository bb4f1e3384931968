//! Relations: a sum of terms, of which some are products. "That row is opened, and under demand 2's
//! premises the relation holds modulo p exactly when the number is 0."

use crate::field::{expect_elements, Element};
use crate::opening::{Accepted, Record};
use crate::product::{Product, MASKED, UNUSED};
use crate::refusal::{require, Refusal};
use crate::row::weighted_sum;
use crate::session::{mark, Answer, Session};
use crate::shape::{expect_length, expect_row, expect_triple, Shape};

/// A second row of 255 is none.
pub const NO_ROW: usize = 255;

/// The most terms of a relation.
pub const MAX_TERMS: usize = 32;

/// "A coefficient, a row, a second row or 255 for none, and the first row of a triple, not looked at
/// when there is none."
#[derive(Clone, Copy, Debug, PartialEq, Eq)]
pub struct Term {
    /// The coefficient, an element.
    pub coefficient: u32,
    /// The row, or the first factor row.
    pub row: usize,
    /// The second factor row, or [`NO_ROW`].
    pub second: usize,
    /// The first row of the triple of a product term.
    pub first: usize,
}

impl Term {
    /// What a product term multiplies; `None` for a term of one row.
    fn product(self) -> Option<Product> {
        let Self { row: a, second: b, first, .. } = self;
        (b != NO_ROW).then_some(Product { a, b, first })
    }

    /// The row, and the second row where there is one.
    fn rows(self) -> Vec<usize> {
        self.product().map_or(vec![self.row], |Product { a, b, .. }| vec![a, b])
    }

    /// Check 6.
    fn expect_rows(self) -> Result<(), Refusal> {
        expect_row(self.row)?;
        if let Some(product) = self.product() {
            expect_row(product.b)?;
            expect_triple(product.first)?;
        }
        Ok(())
    }

    /// Check 7: "both calls need each term's row or rows held", and the triple's marks.
    fn expect_marks(self, s: &Session, triple: [u8; 3]) -> Result<(), Refusal> {
        s.expect_mark(self.row, mark::HELD)?;
        if let Some(product) = self.product() {
            s.expect_mark(product.b, mark::HELD)?;
            s.expect_marks(product.first, triple)?;
        }
        Ok(())
    }

    /// The row whose number the term takes, once its product is written.
    fn source(self) -> usize {
        self.product().map_or(self.row, |product| product.first + 2)
    }
}

/// The product terms.
fn products(terms: &[Term]) -> Vec<Product> {
    terms.iter().filter_map(|term| term.product()).collect()
}

/// Check 14: "a list of no terms or of more than 32".
fn expect_count(terms: &[Term]) -> Result<(), Refusal> {
    require((1..=MAX_TERMS).contains(&terms.len()), Refusal::Terms)
}

/// Check 7 for a triple named twice.
fn expect_own_triples(products: &[Product]) -> Result<(), Refusal> {
    let mut firsts: Vec<usize> = products.iter().map(|product| product.first).collect();
    firsts.sort_unstable();
    firsts.dedup();
    require(firsts.len() == products.len(), Refusal::Mark)
}

/// Check 8 for the coefficients.
fn expect_coefficients<const P: u32>(terms: &[Term]) -> Result<(), Refusal> {
    require(terms.iter().all(|term| term.coefficient < P), Refusal::Number)
}

/// "One call makes the masks of all product terms", into a lent list, as a single product for each.
/// "Masks and records follow one another by product term, those of a − l first."
pub fn relation_masks<const P: u32>(
    s: Session,
    rows: &[u32],
    terms: &[Term],
    out: &mut [u32],
) -> Answer {
    s.answer(try_relation_masks::<P>(s, rows, terms, out))
}

fn try_relation_masks<const P: u32>(
    s: Session,
    rows: &[u32],
    terms: &[Term],
    out: &mut [u32],
) -> Result<(u32, Session), Refusal> {
    let shape = s.checked::<P>()?;
    let products = products(terms);
    expect_length(rows, shape.all_rows())?;
    expect_length(out, products.len() * shape.masks())?;
    expect_count(terms)?;
    terms.iter().try_for_each(|term| term.expect_rows())?;
    terms.iter().try_for_each(|term| term.expect_marks(&s, UNUSED))?;
    expect_own_triples(&products)?;
    expect_coefficients::<P>(terms)?;
    for Product { a, b, first } in &products {
        for &row in [a, b, first, &(first + 1)] {
            expect_elements::<P>(&rows[shape.at(row)])?;
        }
    }
    for (product, part) in products.iter().zip(out.chunks_exact_mut(shape.masks())) {
        product.write_masks::<P>(shape, rows, part);
    }
    Ok((0, products.iter().fold(s, |s, product| product.masked(s))))
}

/// "Another finishes them and stores the sum in an empty row": `dest`. `records` has two records for
/// each product term.
pub fn relation_finish<const P: u32>(
    s: Session,
    rows: &mut [u32],
    terms: &[Term],
    records: &[u32],
    dest: usize,
) -> Answer {
    s.answer(try_relation_finish::<P>(s, rows, terms, records, dest))
}

fn try_relation_finish<const P: u32>(
    s: Session,
    rows: &mut [u32],
    terms: &[Term],
    records: &[u32],
    dest: usize,
) -> Result<(u32, Session), Refusal> {
    let shape = s.checked::<P>()?;
    let products = products(terms);
    expect_length(rows, shape.all_rows())?;
    expect_length(records, products.len() * 2 * shape.record())?;
    expect_count(terms)?;
    // "6 is checked over all terms before 7, the sum's row last in each."
    terms.iter().try_for_each(|term| term.expect_rows())?;
    expect_row(dest)?;
    terms.iter().try_for_each(|term| term.expect_marks(&s, MASKED))?;
    expect_own_triples(&products)?;
    require(products.iter().all(|product| product.is_remembered(&s)), Refusal::Mark)?;
    s.expect_mark(dest, mark::EMPTY)?;
    expect_coefficients::<P>(terms)?;
    expect_rows_read::<P>(shape, rows, terms)?;
    let records = checked_records::<P>(shape, &s, records)?;
    let numbers = opened_masks::<P>(shape, &s, rows, &products, &records)?;
    let mut finished = s.with_mark(dest, mark::HELD);
    for (product, numbers) in products.iter().zip(numbers) {
        finished = product.write::<P>(shape, product.opened(finished, numbers), rows);
    }
    write_sum::<P>(shape, rows, terms, dest);
    Ok((0, finished.made_from(dest, terms.iter().flat_map(|term| term.rows()))))
}

/// Check 8 for "every row of every term" and "the triples' three rows".
fn expect_rows_read<const P: u32>(
    shape: Shape,
    rows: &[u32],
    terms: &[Term],
) -> Result<(), Refusal> {
    for term in terms {
        expect_elements::<P>(&rows[shape.at(term.row)])?;
        if let Some(Product { b, first, .. }) = term.product() {
            for row in [b, first, first + 1, first + 2] {
                expect_elements::<P>(&rows[shape.at(row)])?;
            }
        }
    }
    Ok(())
}

/// Check 8 for the records, two for each product term.
fn checked_records<'a, const P: u32>(
    shape: Shape,
    s: &Session,
    records: &'a [u32],
) -> Result<Vec<Record<'a>>, Refusal> {
    let record = |numbers| {
        let record = Record::checked_length(shape, numbers)?;
        record.expect_numbers::<P>(s.post)?;
        Ok(record)
    };
    records.chunks_exact(shape.record()).map(record).collect()
}

/// y and y' of each product term: 9 over all records, then 13 over all.
fn opened_masks<const P: u32>(
    shape: Shape,
    s: &Session,
    rows: &[u32],
    products: &[Product],
    records: &[Record],
) -> Result<Vec<(Element<P>, Element<P>)>, Refusal> {
    let pairs = products.iter().zip(records.chunks_exact(2));
    let accepted: Vec<[Accepted<P>; 2]> = pairs
        .map(|(product, pair)| product.accepted(shape, s, rows, [pair[0], pair[1]]))
        .collect::<Result<_, _>>()?;
    accepted.iter().map(|[left, right]| Ok((left.number()?, right.number()?))).collect()
}

/// The sum of the terms, from 0, whose row is all zeros.
fn write_sum<const P: u32>(shape: Shape, rows: &mut [u32], terms: &[Term], dest: usize) {
    let sum = terms.iter().fold(vec![0; shape.row()], |sum, term| {
        let row = &rows[shape.at(term.source())];
        weighted_sum::<P>(shape, &sum, term.coefficient.into(), row, Element::ZERO)
    });
    rows[shape.at(dest)].copy_from_slice(&sum);
}
