//! "From the factory": the rows of all posts from lent draws, and the dealer's number.

use crate::field::{expect_elements, Element};
use crate::polynomial::evaluate;
use crate::refusal::{number_of, require, Refusal};
use crate::session::expect_check_point;
use crate::shape::{expect_length, Shape, TRIPLE};

/// The draw of one row, taken apart.
struct Draw<'a> {
    /// f.
    dealer: &'a [u32],
    /// v1 to vn, one after the other.
    verification: &'a [u32],
}

impl<'a> Draw<'a> {
    /// "t+1 coefficients of f, then t+1 for each of v1 to vn", or 2t+1.
    fn split(shape: Shape, numbers: &'a [u32]) -> Self {
        let (dealer, verification) = numbers.split_at(shape.dealer_coefficients());
        Self { dealer, verification }
    }

    /// Writes every post's row "into its own part of the lent list, post 1 first".
    fn write<const P: u32>(&self, shape: Shape, points: &[u32], out: &mut [u32]) {
        let sums = self.sums::<P>(shape);
        let parts = out.chunks_exact_mut(shape.row());
        let points = points.chunks_exact(shape.points());
        for ((part, points), own) in parts.zip(points).zip(self.polynomials(shape)) {
            part.copy_from_slice(&self.row::<P>(shape, own, points, &sums));
        }
    }

    /// One post's row: its own polynomial, "the check values v1(wi) to vn(wi), its own included; the
    /// public sums m1 to mn".
    fn row<const P: u32>(
        &self,
        shape: Shape,
        own: &[u32],
        points: &[u32],
        sums: &[u32],
    ) -> Vec<u32> {
        let at_points = |v| points.iter().map(move |&w| evaluate::<P>(v, w.into()).value());
        let check_values: Vec<u32> = self.polynomials(shape).flat_map(at_points).collect();
        [own, &check_values, sums].concat()
    }

    /// v1 to vn.
    fn polynomials(&self, shape: Shape) -> impl Iterator<Item = &'a [u32]> {
        self.verification.chunks_exact(shape.coefficients())
    }

    /// "The public sums m1 to mn": "mj = vj(0) + f(j)."
    fn sums<const P: u32>(&self, shape: Shape) -> Vec<u32> {
        let f = |j: u32| evaluate::<P>(self.dealer, j.into());
        let sum = |(v, j): (&[u32], u32)| (Element::from(v[0]) + f(j)).value();
        self.polynomials(shape).zip(1..).map(sum).collect()
    }
}

/// One post's row from a row's draw.
pub(crate) fn row_of_post<const P: u32>(
    shape: Shape,
    draw: &[u32],
    post: usize,
    points: &[u32],
) -> Vec<u32> {
    let draw = Draw::split(shape, draw);
    let own = &draw.verification[(post - 1) * shape.coefficients()..][..shape.coefficients()];
    draw.row::<P>(shape, own, points, &draw.sums::<P>(shape))
}

/// Check 4 over every number of the list as it was lent; then 5 for it.
pub(crate) fn expect_points<const P: u32>(shape: Shape, points: &[u32]) -> Result<(), Refusal> {
    for &point in points {
        expect_check_point::<P>(point)?;
    }
    expect_length(points, shape.all_points())
}

/// One row for all posts; the refusal, 0 for none.
///
/// `points` are the check points, k for each post; `draw` has t+1 numbers and n × (k t + 1), `out` n
/// rows.
pub fn factory_row<const P: u32>(
    n: usize,
    t: usize,
    k: usize,
    points: &[u32],
    draw: &[u32],
    out: &mut [u32],
) -> u8 {
    number_of(try_factory_row::<P>((n, t, k), points, draw, out))
}

fn try_factory_row<const P: u32>(
    (n, t, k): (usize, usize, usize),
    points: &[u32],
    draw: &[u32],
    out: &mut [u32],
) -> Result<(), Refusal> {
    let shape = Shape::checked(n, t, k)?;
    expect_points::<P>(shape, points)?;
    expect_length(draw, shape.row_draw())?;
    expect_length(out, shape.row_packs())?;
    expect_elements::<P>(draw)?;
    Draw::split(shape, draw).write::<P>(shape, points, out);
    Ok(())
}

/// One triple for all posts; the refusal, 0 for none.
///
/// `draw` has three draws less one number. "The lent list holds all posts' rows of l, then of l',
/// then of l''."
pub fn factory_triple<const P: u32>(
    n: usize,
    t: usize,
    k: usize,
    points: &[u32],
    draw: &[u32],
    out: &mut [u32],
) -> u8 {
    number_of(try_factory_triple::<P>((n, t, k), points, draw, out))
}

fn try_factory_triple<const P: u32>(
    (n, t, k): (usize, usize, usize),
    points: &[u32],
    draw: &[u32],
    out: &mut [u32],
) -> Result<(), Refusal> {
    let shape = Shape::checked(n, t, k)?;
    expect_points::<P>(shape, points)?;
    expect_length(draw, shape.triple_draw())?;
    expect_length(out, TRIPLE * shape.row_packs())?;
    expect_elements::<P>(draw)?;
    write_triple::<P>(shape, points, draw, out);
    Ok(())
}

fn write_triple<const P: u32>(shape: Shape, points: &[u32], draw: &[u32], out: &mut [u32]) {
    let completed = completed_triple::<P>(shape, draw);
    let draws = completed.chunks_exact(shape.row_draw());
    for (draw, part) in draws.zip(out.chunks_exact_mut(shape.row_packs())) {
        Draw::split(shape, draw).write::<P>(shape, points, part);
    }
}

/// The three draws of a triple. "The third lacks f's constant, which is f(0) of l × f(0) of l'."
pub(crate) fn completed_triple<const P: u32>(shape: Shape, draw: &[u32]) -> Vec<u32> {
    let constant = Element::<P>::from(draw[0]) * draw[shape.row_draw()].into();
    let (first_two, third) = draw.split_at(2 * shape.row_draw());
    [first_two, &[constant.value()], third].concat()
}

/// "The dealer's number is c = u − f(0)." The refusal and c.
pub fn dealer_number<const P: u32>(u: u32, f0: u32) -> (u8, u32) {
    match require(u < P && f0 < P, Refusal::Number) {
        Ok(()) => (0, (Element::<P>::from(u) - f0.into()).value()),
        Err(refusal) => (refusal.number(), 0),
    }
}
