//! Pack files: "the works copies packs into posts through a file".

use crate::factory::{completed_triple, expect_points, row_of_post};
use crate::field::expect_elements;
use crate::lines::{line, put, Written};
use crate::refusal::{require, Refusal};
use crate::session::mark;
use crate::shape::{expect_length, expect_triple, Shape, ROWS, TRIPLE};

/// "A kind is 0 for empty, 1 for raw, 3 for a triple's first row, which then covers the next two."
mod kind {
    use super::mark;

    pub(super) const EMPTY: u8 = mark::EMPTY;
    pub(super) const RAW: u8 = mark::RAW;
    pub(super) const TRIPLE: u8 = mark::UNUSED;
}

/// "Write that post's file: its `S` line, then `R` and `T` lines by rising row." With two check points
/// it starts with a `W` line.
///
/// `points` are the check points, k for each post, `kinds` the 96 kinds of rows. "The draws follow by
/// rising row; their stated length counts each 1 and 3, rightly placed or not."
pub fn write_pack<const P: u32>(
    n: usize,
    t: usize,
    k: usize,
    post: usize,
    points: &[u32],
    kinds: &[u8],
    draws: &[u32],
    out: &mut [u8],
) -> Written {
    try_write_pack::<P>((n, t, k), post, points, kinds, draws, out).into()
}

fn try_write_pack<const P: u32>(
    (n, t, k): (usize, usize, usize),
    post: usize,
    points: &[u32],
    kinds: &[u8],
    draws: &[u32],
    out: &mut [u8],
) -> Result<usize, Refusal> {
    let shape = Shape::checked_at(n, t, post, k)?;
    expect_points::<P>(shape, points)?;
    expect_length(kinds, ROWS)?;
    expect_length(draws, kinds.iter().map(|&kind| draw_length(shape, kind)).sum())?;
    expect_placed(kinds)?;
    expect_covered_empty(kinds)?;
    require(kinds.iter().all(|&kind| is_known(kind)), Refusal::Number)?;
    expect_elements::<P>(draws)?;
    let points = shape.points_of(points, post);
    let start = line(if k == 1 { 'S' } else { 'W' }, &[n, t, post], points);
    put(&(start + &row_lines::<P>(shape, post, points, kinds, draws)), out)
}

fn is_known(kind: u8) -> bool {
    [kind::EMPTY, kind::RAW, kind::TRIPLE].contains(&kind)
}

/// The numbers drawn for a row of this kind.
fn draw_length(shape: Shape, kind: u8) -> usize {
    match kind {
        kind::RAW => shape.row_draw(),
        kind::TRIPLE => shape.triple_draw(),
        _ => 0,
    }
}

/// Check 6: "a 3 above row 93 gets 6".
fn expect_placed(kinds: &[u8]) -> Result<(), Refusal> {
    let mut firsts = kinds.iter().enumerate().filter(|(_, &kind)| kind == kind::TRIPLE);
    firsts.try_for_each(|(first, _)| expect_triple(first))
}

/// Check 7: "a kind other than 0 inside a triple gets 7".
fn expect_covered_empty(kinds: &[u8]) -> Result<(), Refusal> {
    let inside = |triple: &[u8]| triple[1..].iter().all(|&kind| kind == kind::EMPTY);
    let mut triples = kinds.windows(TRIPLE).filter(|triple| triple[0] == kind::TRIPLE);
    require(triples.all(inside), Refusal::Mark)
}

/// The `R` and `T` lines, each with the next draw.
fn row_lines<const P: u32>(
    shape: Shape,
    post: usize,
    points: &[u32],
    kinds: &[u8],
    mut draws: &[u32],
) -> String {
    let row_of = |draw: &[u32]| row_of_post::<P>(shape, draw, post, points);
    let mut lines = String::new();
    for (row, &kind) in kinds.iter().enumerate() {
        let (draw, rest) = draws.split_at(draw_length(shape, kind));
        draws = rest;
        match kind {
            kind::RAW => lines += &line('R', &[row], &row_of(draw)),
            kind::TRIPLE => {
                let draws = completed_triple::<P>(shape, draw);
                let rows: Vec<_> = draws.chunks_exact(shape.row_draw()).map(row_of).collect();
                lines += &line('T', &[row], &rows.concat());
            }
            _ => {}
        }
    }
    lines
}
