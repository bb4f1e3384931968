//! Writing a broadcast line into a lent part. "All coefficients are sent, zeros too."

use crate::field::expect_elements;
use crate::refusal::{require, Refusal};
use crate::shape::{expect_length, expect_posts, expect_row, expect_triple, Shape};

/// What a writer answers.
#[derive(Clone, Copy, Debug, Default, PartialEq, Eq)]
pub struct Written {
    /// The refusal, 0 for none.
    pub refusal: u8,
    /// The line's length with its line feed; 0 when refused.
    pub length: usize,
}

impl From<Result<usize, Refusal>> for Written {
    fn from(outcome: Result<usize, Refusal>) -> Self {
        match outcome {
            Ok(length) => Self { refusal: 0, length },
            Err(refusal) => Self { refusal: refusal.number(), length: 0 },
        }
    }
}

/// The line of `letter` and these numbers.
pub(crate) fn line(letter: char, heading: &[usize], elements: &[u32]) -> String {
    let mut line = String::from(letter);
    for field in heading {
        line += &format!(",{field}");
    }
    for field in elements {
        line += &format!(",{field}");
    }
    line + "\n"
}

/// Check 12, then the line at the start of `out`: "a written line leaves the rest of its part
/// untouched".
pub(crate) fn put(line: &str, out: &mut [u8]) -> Result<usize, Refusal> {
    let place = out.get_mut(..line.len()).ok_or(Refusal::Space)?;
    place.copy_from_slice(line.as_bytes());
    Ok(line.len())
}

/// `D,row,c`, which does not depend on the number of check points
pub fn write_deal<const P: u32>(n: usize, t: usize, row: usize, c: u32, out: &mut [u8]) -> Written {
    try_write_deal::<P>(n, t, row, c, out).into()
}

fn try_write_deal<const P: u32>(
    n: usize,
    t: usize,
    row: usize,
    c: u32,
    out: &mut [u8],
) -> Result<usize, Refusal> {
    expect_posts(n, t)?;
    expect_row(row)?;
    require(c < P, Refusal::Number)?;
    put(&line('D', &[row], &[c]), out)
}

/// `O,row,post,` t+1 coefficients, or 2t+1
pub fn write_opening<const P: u32>(
    n: usize,
    t: usize,
    k: usize,
    row: usize,
    post: usize,
    coefficients: &[u32],
    out: &mut [u8],
) -> Written {
    try_write_opening::<P>((n, t, k), row, post, coefficients, out).into()
}

fn try_write_opening<const P: u32>(
    (n, t, k): (usize, usize, usize),
    row: usize,
    post: usize,
    coefficients: &[u32],
    out: &mut [u8],
) -> Result<usize, Refusal> {
    let shape = Shape::checked_at(n, t, post, k)?;
    expect_length(coefficients, shape.coefficients())?;
    expect_row(row)?;
    expect_elements::<P>(coefficients)?;
    put(&line('O', &[row, post], coefficients), out)
}

/// `M,first row of triple,post,` t+1 coefficients of a − l, or 2t+1, then as many of b − l'
pub fn write_masks<const P: u32>(
    n: usize,
    t: usize,
    k: usize,
    first: usize,
    post: usize,
    numbers: &[u32],
    out: &mut [u8],
) -> Written {
    try_write_masks::<P>((n, t, k), first, post, numbers, out).into()
}

pub(crate) fn try_write_masks<const P: u32>(
    (n, t, k): (usize, usize, usize),
    first: usize,
    post: usize,
    numbers: &[u32],
    out: &mut [u8],
) -> Result<usize, Refusal> {
    let shape = Shape::checked_at(n, t, post, k)?;
    expect_length(numbers, shape.masks())?;
    expect_triple(first)?;
    expect_elements::<P>(numbers)?;
    put(&line('M', &[first, post], numbers), out)
}
