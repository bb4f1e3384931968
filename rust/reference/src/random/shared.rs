//! What the works knows of a shared number: the polynomials behind every post's row.

use super::Rng;
use crate::polynomial::{evaluate, times_difference};
use crate::{Element, Shape, MAX_POINTS, MAX_POSTS, MODULUS, STREET_POSTS};

type Field = Element<MODULUS>;

/// Random n, t and k, now and then at the edges: one in twenty with more posts than the street
/// program takes, as these take long.
pub fn shape(rng: &mut Rng) -> Shape {
    let n = match rng.below(60) {
        0 => MAX_POSTS,
        1 | 2 => rng.between(STREET_POSTS + 1, MAX_POSTS),
        _ => street_posts(rng),
    };
    shape_of(rng, n)
}

/// Random n, t and k that the street program takes.
pub fn street_shape(rng: &mut Rng) -> Shape {
    let n = street_posts(rng);
    shape_of(rng, n)
}

fn shape_of(rng: &mut Rng, n: usize) -> Shape {
    let (t, k) = (threshold(rng, n), rng.pick(&[1, 1, MAX_POINTS]));
    Shape::checked(n, t, k).expect("a random shape is in range")
}

fn street_posts(rng: &mut Rng) -> usize {
    match rng.below(6) {
        0 => STREET_POSTS,
        1 => 2,
        2 | 3 => rng.between(3, 5),
        _ => rng.between(2, STREET_POSTS),
    }
}

fn threshold(rng: &mut Rng, n: usize) -> usize {
    match rng.below(4) {
        0 => n - 1,
        1 => rng.pick(&[1, n / 2]),
        _ => rng.between(1, n - 1),
    }
}

/// All posts' check points, now and then an equal pair, of one post or of two.
pub fn check_points(rng: &mut Rng, shape: Shape) -> Vec<u32> {
    let mut points: Vec<u32> = (0..shape.all_points()).map(|_| rng.element().max(1)).collect();
    if rng.one_in(3) {
        let (one, other) = (rng.below(points.len()), rng.below(points.len()));
        points[one] = points[other];
    }
    points
}

/// The polynomial plus a multiple of z^place Π (z − w) over a post's check points: another one with
/// the same values there.
pub fn unnoticed(polynomial: &[u32], place: usize, multiple: u32, points: &[u32]) -> Vec<u32> {
    let mut added = vec![Field::from(multiple)];
    for &point in points {
        added = times_difference(&added, point.into());
    }
    let mut forged = polynomial.to_vec();
    for (coefficient, term) in forged[place..].iter_mut().zip(added) {
        *coefficient = (Field::from(*coefficient) + term).value();
    }
    forged
}

/// One shared number as the works sees it: f and v1 to vn. The calls act on it as on the rows.
#[derive(Clone, Debug, PartialEq, Eq)]
pub struct SharedRow {
    /// The dealer's polynomial; its constant is the number shared.
    pub f: Vec<u32>,
    /// Each post's own polynomial.
    pub v: Vec<Vec<u32>>,
}

impl SharedRow {
    /// The row of all zeros.
    pub fn zero(shape: Shape) -> Self {
        Self {
            f: vec![0; shape.dealer_coefficients()],
            v: vec![vec![0; shape.coefficients()]; shape.posts()],
        }
    }

    /// A random row.
    pub fn random(rng: &mut Rng, shape: Shape) -> Self {
        Self {
            f: rng.elements(shape.dealer_coefficients()),
            v: (0..shape.posts()).map(|_| rng.elements(shape.coefficients())).collect(),
        }
    }

    /// A random triple: the number of the third is the product of the other two.
    pub fn random_triple(rng: &mut Rng, shape: Shape) -> [Self; 3] {
        let mut triple = [(); 3].map(|()| Self::random(rng, shape));
        let product = Field::from(triple[0].number()) * triple[1].number().into();
        triple[2].f[0] = product.value();
        triple
    }

    /// The number shared.
    pub fn number(&self) -> u32 {
        self.f[0]
    }

    /// The draw that gives this row.
    pub fn draw(&self) -> Vec<u32> {
        [self.f.clone(), self.v.concat()].concat()
    }

    /// The draw that gives this triple: the third lacks f's constant.
    pub fn triple_draw([l, l2, l3]: &[Self; 3]) -> Vec<u32> {
        [l.draw(), l2.draw(), l3.draw()[1..].to_vec()].concat()
    }

    /// What post `post` with these check points holds.
    pub fn row_of(&self, post: usize, points: &[u32]) -> Vec<u32> {
        let at = |v| move |&point: &u32| evaluate::<MODULUS>(v, point.into());
        let checks = self.v.iter().flat_map(|v| points.iter().map(at(v)));
        let sums = self
            .v
            .iter()
            .zip(1..)
            .map(|(v, j): (_, u32)| Field::from(v[0]) + evaluate(&self.f, j.into()));
        let own = self.v[post - 1].iter().copied();
        own.chain(checks.chain(sums).map(Field::value)).collect()
    }

    /// All posts' rows, post 1 first.
    pub fn packs(&self, points: &[u32]) -> Vec<u32> {
        let posts = points.chunks(points.len() / self.v.len()).zip(1..);
        posts.flat_map(|(points, post)| self.row_of(post, points)).collect()
    }

    /// This row plus `scale` times `other`.
    pub fn plus_scaled(&self, scale: u32, other: &Self) -> Self {
        let sum = |a: &[u32], b: &[u32]| -> Vec<u32> {
            let terms = a.iter().zip(b);
            let sums = terms.map(|(&a, &b)| Field::from(a) + Field::from(scale) * b.into());
            sums.map(Field::value).collect()
        };
        Self {
            f: sum(&self.f, &other.f),
            v: self.v.iter().zip(&other.v).map(|(a, b)| sum(a, b)).collect(),
        }
    }

    /// This row minus `other`.
    pub fn minus(&self, other: &Self) -> Self {
        self.plus_scaled(MODULUS - 1, other)
    }

    /// This row with the public number `number` added.
    pub fn plus_public(mut self, number: u32) -> Self {
        self.f[0] = (Field::from(self.f[0]) + number.into()).value();
        self
    }

    /// The product of `a` and `b` by the triple l, l', l''.
    pub fn product(a: &Self, b: &Self, [l, l2, l3]: &[Self; 3]) -> Self {
        let y = a.minus(l).number();
        let y2 = b.minus(l2).number();
        let both = Field::from(y) * y2.into();
        l3.plus_scaled(y, l2).plus_scaled(y2, l).plus_public(both.value())
    }
}
