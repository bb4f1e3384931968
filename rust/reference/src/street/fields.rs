//! The fields of the program's own lines: their form, then their range.

use crate::lines::{body, number, numbers};
use crate::refusal::{require, Refusal};
use crate::shape::{ROWS, TRIPLE};

/// The bytes up to the first comma, line feed or end of input.
pub(super) fn first_field(line: &[u8]) -> &[u8] {
    let end = line.iter().position(|byte| b",\n".contains(byte));
    &line[..end.unwrap_or(line.len())]
}

/// n, t and post of a start line, and one or two check points.
pub(super) struct Start {
    pub(super) n: u64,
    pub(super) t: u64,
    pub(super) post: u64,
    pub(super) points: Vec<u64>,
}

impl Start {
    /// `S,n,t,post,checkpoint` or `W,n,t,post,first,second`; `None` for another form.
    pub(super) fn parse(line: &[u8]) -> Option<Self> {
        let fields: Vec<&[u8]> = body(line)?.split(|&byte| byte == b',').collect();
        let ([n, t, post], points) = match *fields.as_slice() {
            [b"S", n, t, post, point] => ([n, t, post], vec![point]),
            [b"W", n, t, post, first, second] => ([n, t, post], vec![first, second]),
            _ => return None,
        };
        let n = number(n)?;
        let t = match t {
            // "It now means n divided by 2, rounded down. It holds for `S` and `W`."
            b"-" => n / 2,
            t => number(t)?,
        };
        let points = points.into_iter().map(number).collect::<Option<_>>()?;
        Some(Self { n, t, post: number(post)?, points })
    }
}

/// The `count` numbers behind the letter of a line, 10 when it has another form.
pub(super) fn plain_numbers(line: &[u8], count: usize) -> Result<Vec<u64>, Refusal> {
    let fields = body(line).map(|body| body.split(|&byte| byte == b',').skip(1));
    fields.and_then(|fields| numbers(fields, count)).ok_or(Refusal::Form)
}

/// Check 11 for a row number.
pub(super) fn row_in_range(row: u64) -> Result<usize, Refusal> {
    require(row < ROWS as u64, Refusal::Range)?;
    Ok(row as usize)
}

/// Check 11 for a triple's first row.
pub(super) fn triple_in_range(first: u64) -> Result<usize, Refusal> {
    require(first <= (ROWS - TRIPLE) as u64, Refusal::Range)?;
    Ok(first as usize)
}

/// Check 11 for elements.
pub(super) fn elements_in_range<const P: u32>(elements: &[u64]) -> Result<Vec<u32>, Refusal> {
    require(elements.iter().all(|&element| element < P.into()), Refusal::Range)?;
    Ok(elements.iter().map(|&element| element as u32).collect())
}

/// A number that is judged before it is narrowed: what doesn't fit stays out of every range.
pub(super) fn saturated(number: u64) -> usize {
    usize::try_from(number).unwrap_or(usize::MAX)
}
