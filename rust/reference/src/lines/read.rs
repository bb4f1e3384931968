//! Reading a broadcast line.

use super::parse::{body, numbers};
use crate::refusal::{require, Refusal};
use crate::shape::{expect_length, Shape, ROWS, TRIPLE};

/// What a reader answers; all 0 but the refusal when refused.
#[derive(Clone, Copy, Debug, Default, PartialEq, Eq)]
pub struct ReadLine {
    /// The refusal, 0 for none.
    pub refusal: u8,
    /// `D`, `O` or `M`.
    pub letter: u8,
    /// The row, or the first row of the triple.
    pub row: usize,
    /// The sender; 0 for `D`, which names none.
    pub post: usize,
}

/// A line of right form, its numbers not yet judged.
struct Parsed {
    letter: u8,
    row: u64,
    post: Option<u64>,
    elements: Vec<u64>,
}

impl Parsed {
    /// Check 10, over the whole line.
    fn parse(shape: Shape, line: &[u8]) -> Option<Self> {
        let mut fields = body(line)?.split(|&byte| byte == b',');
        let &[letter] = fields.next()? else {
            return None;
        };
        let (heading, elements) = match letter {
            b'D' => (1, 1),
            b'O' => (2, shape.coefficients()),
            b'M' => (2, shape.masks()),
            _ => return None,
        };
        let numbers = numbers(fields, heading + elements)?;
        Some(Self {
            letter,
            row: numbers[0],
            post: (heading == 2).then(|| numbers[1]),
            elements: numbers[heading..].to_vec(),
        })
    }

    /// Check 11: "element at least p, row above 95 (a triple's first above 93), post outside 1..n".
    fn expect_range<const P: u32>(&self, shape: Shape) -> Result<(), Refusal> {
        let rows = match self.letter {
            b'M' => ROWS - TRIPLE + 1,
            _ => ROWS,
        };
        require(self.row < rows as u64, Refusal::Range)?;
        let posts = 1..=shape.posts() as u64;
        require(self.post.is_none_or(|post| posts.contains(&post)), Refusal::Range)?;
        let all = self.elements.iter().all(|&element| element < P.into());
        require(all, Refusal::Range)
    }
}

/// Reads a line for n posts with k check points each, and threshold t.
///
/// "An accepted line fills a lent list of 2(t+1) numbers", or 2(2t+1), "from its start; the places
/// behind are set to 0." A refused one leaves the list as it is.
pub fn read<const P: u32>(n: usize, t: usize, k: usize, line: &[u8], out: &mut [u32]) -> ReadLine {
    try_read::<P>((n, t, k), line, out)
        .unwrap_or_else(|refusal| ReadLine { refusal: refusal.number(), ..ReadLine::default() })
}

pub(crate) fn try_read<const P: u32>(
    (n, t, k): (usize, usize, usize),
    line: &[u8],
    out: &mut [u32],
) -> Result<ReadLine, Refusal> {
    let shape = Shape::checked(n, t, k)?;
    expect_length(out, shape.masks())?;
    let parsed = Parsed::parse(shape, line).ok_or(Refusal::Form)?;
    parsed.expect_range::<P>(shape)?;
    // In range, every number fits its narrower type.
    let elements = parsed.elements.iter().map(|&element| element as u32);
    for (place, element) in out.iter_mut().zip(elements.chain(std::iter::repeat(0))) {
        *place = element;
    }
    Ok(ReadLine {
        refusal: 0,
        letter: parsed.letter,
        row: parsed.row as usize,
        post: parsed.post.unwrap_or(0) as usize,
    })
}

/// The row and the number of a `D` line, 10 for any other.
pub(crate) fn try_read_deal<const P: u32>(
    shape: Shape,
    line: &[u8],
) -> Result<(usize, u32), Refusal> {
    let parsed = Parsed::parse(shape, line).filter(|parsed| parsed.letter == b'D');
    let parsed = parsed.ok_or(Refusal::Form)?;
    parsed.expect_range::<P>(shape)?;
    Ok((parsed.row as usize, parsed.elements[0] as u32))
}
