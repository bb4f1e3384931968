//! Loading, dealing, the opening message and weighted sums.

use crate::callers::expect_caller;
use crate::field::expect_elements;
use crate::refusal::{require, Refusal};
use crate::row::{add_public, weighted_sum};
use crate::session::{mark, Answer, Session};
use crate::shape::{expect_length, expect_row, expect_triple};

/// "A raw row goes to an empty row." `pack` has the numbers of a row.
pub fn load_row<const P: u32>(s: Session, rows: &mut [u32], row: usize, pack: &[u32]) -> Answer {
    s.answer(try_load_row::<P>(s, rows, row, pack))
}

pub(crate) fn try_load_row<const P: u32>(
    s: Session,
    rows: &mut [u32],
    row: usize,
    pack: &[u32],
) -> Result<(u32, Session), Refusal> {
    let shape = s.checked::<P>()?;
    expect_length(rows, shape.all_rows())?;
    expect_length(pack, shape.row())?;
    expect_row(row)?;
    s.expect_mark(row, mark::EMPTY)?;
    expect_elements::<P>(pack)?;
    rows[shape.at(row)].copy_from_slice(pack);
    Ok((0, s.with_mark(row, mark::RAW)))
}

/// "A triple goes to three empty rows r, r+1, r+2." `pack` has those of three rows.
pub fn load_triple<const P: u32>(
    s: Session,
    rows: &mut [u32],
    first: usize,
    pack: &[u32],
) -> Answer {
    s.answer(try_load_triple::<P>(s, rows, first, pack))
}

pub(crate) fn try_load_triple<const P: u32>(
    s: Session,
    rows: &mut [u32],
    first: usize,
    pack: &[u32],
) -> Result<(u32, Session), Refusal> {
    let shape = s.checked::<P>()?;
    expect_length(rows, shape.all_rows())?;
    expect_length(pack, shape.triple())?;
    expect_triple(first)?;
    s.expect_marks(first, [mark::EMPTY; 3])?;
    expect_elements::<P>(pack)?;
    rows[shape.at(first).start..][..shape.triple()].copy_from_slice(pack);
    let loaded = [mark::UNUSED, mark::FOLLOWING, mark::FOLLOWING];
    Ok((0, s.with_marks(first, loaded)))
}

/// "A post adds c to m1..mn of a raw row, which becomes held."
pub fn deal<const P: u32>(s: Session, rows: &mut [u32], row: usize, c: u32) -> Answer {
    s.answer(try_deal::<P>(s, rows, row, c))
}

pub(crate) fn try_deal<const P: u32>(
    s: Session,
    rows: &mut [u32],
    row: usize,
    c: u32,
) -> Result<(u32, Session), Refusal> {
    let shape = s.checked::<P>()?;
    expect_length(rows, shape.all_rows())?;
    expect_row(row)?;
    s.expect_mark(row, mark::RAW)?;
    require(c < P, Refusal::Number)?;
    expect_elements::<P>(&rows[shape.at(row)])?;
    add_public::<P>(shape, &mut rows[shape.at(row)], c.into());
    Ok((0, s.with_mark(row, mark::HELD)))
}

/// "The t+1 coefficients of a held row", or 2t+1, into a lent list of as many. "The opening message
/// call takes the number of the post that calls for it."
pub fn opening_message<const P: u32>(
    s: Session,
    rows: &[u32],
    row: usize,
    caller: usize,
    out: &mut [u32],
) -> Answer {
    s.answer(try_opening_message::<P>(s, rows, row, caller, out))
}

fn try_opening_message<const P: u32>(
    s: Session,
    rows: &[u32],
    row: usize,
    caller: usize,
    out: &mut [u32],
) -> Result<(u32, Session), Refusal> {
    let shape = s.checked::<P>()?;
    expect_length(rows, shape.all_rows())?;
    expect_length(out, shape.coefficients())?;
    expect_row(row)?;
    s.expect_mark(row, mark::HELD)?;
    let numbers = &rows[shape.at(row)];
    expect_elements::<P>(numbers)?;
    expect_caller(shape, &s, row, caller)?;
    out.copy_from_slice(&numbers[shape.polynomial()]);
    Ok((0, s))
}

/// "a plus s times b, s a public element, element by element over whole rows, into an empty row,
/// which becomes held." The fee is public too, "added to m1..mn of the new row and to nothing else".
pub fn linear<const P: u32>(
    s: Session,
    rows: &mut [u32],
    dest: usize,
    a: usize,
    b: usize,
    scale: u32,
    fee: u32,
) -> Answer {
    s.answer(try_linear::<P>(s, rows, dest, (a, b), (scale, fee)))
}

pub(crate) fn try_linear<const P: u32>(
    s: Session,
    rows: &mut [u32],
    dest: usize,
    (a, b): (usize, usize),
    (scale, fee): (u32, u32),
) -> Result<(u32, Session), Refusal> {
    let shape = s.checked::<P>()?;
    expect_length(rows, shape.all_rows())?;
    for row in [dest, a, b] {
        expect_row(row)?;
    }
    s.expect_mark(dest, mark::EMPTY)?;
    s.expect_mark(a, mark::HELD)?;
    s.expect_mark(b, mark::HELD)?;
    expect_elements::<P>(&[scale, fee])?;
    expect_elements::<P>(&rows[shape.at(a)])?;
    expect_elements::<P>(&rows[shape.at(b)])?;
    let (left, right) = (&rows[shape.at(a)], &rows[shape.at(b)]);
    let sum = weighted_sum::<P>(shape, left, scale.into(), right, fee.into());
    rows[shape.at(dest)].copy_from_slice(&sum);
    Ok((0, s.with_mark(dest, mark::HELD).made_from(dest, [a, b])))
}
