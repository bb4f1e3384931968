//! All draws of a small plan, or those that show a group certain values.

use reference::polynomial::evaluate;
use reference::{Element, Shape};

/// All check points and every number drawn, for a fixed choice of raw rows and triples.
pub struct Draw<'a> {
    pub points: &'a [u32],
    /// A draw for each raw row of the plan.
    pub rows: Vec<&'a [u32]>,
    /// A draw for each triple of the plan.
    pub triples: Vec<&'a [u32]>,
}

/// Which draws are enumerated.
///
/// All draws may be too many. The places named here hold 1 in every draw enumerated; the group sees
/// them, so that the counts of those records are compared in which these places hold 1. That is a
/// part of the whole claim, and the equality of the counts must hold within it.
#[derive(Clone, Copy)]
pub struct Condition<'a> {
    /// The coefficients of the polynomials v of these posts are 1.
    pub own: &'a [usize],
    /// At the check points of the same posts, the polynomials v of all others are 1.
    pub checks: bool,
    /// The public sums m of these posts are 1.
    pub sums: &'a [usize],
    /// Breaks a rule: the polynomials v have t+1 coefficients whatever the number of points, all
    /// others are 0.
    pub short: bool,
}

/// No condition: all draws.
pub const ALL: Condition = Condition { own: &[], checks: false, sums: &[], short: false };

impl Condition<'_> {
    /// Whether the places of a row's draw that aren't set from the start hold what they must.
    fn holds<const P: u32>(&self, shape: Shape, points: &[u32], draw: &[u32]) -> bool {
        let (f, v) = draw.split_at(shape.dealer_coefficients());
        let v = |post: usize| &v[(post - 1) * shape.coefficients()..][..shape.coefficients()];
        let points = |post: usize| shape.points_of(points, post).iter();
        let check = |post: usize, of: usize| {
            points(post).all(|&point| evaluate::<P>(v(of), point.into()) == Element::ONE)
        };
        let sum = |of: usize| Element::<P>::from(v(of)[0]) + evaluate(f, Element::new(of as u64));
        let others = || (1..=shape.posts()).filter(|of| !self.own.contains(of));
        let mut posts = self.own.iter();
        let checked = posts.all(|&post| others().all(|of| check(post, of)));
        (!self.checks || checked) && self.sums.iter().all(|&of| sum(of) == Element::ONE)
    }

    /// What stands in each place of a row's draw from the start.
    fn fixed(&self, shape: Shape) -> Vec<Option<u32>> {
        let mut fixed = vec![None; shape.row_draw()];
        let (f, v) = (shape.dealer_coefficients(), shape.coefficients());
        for (post, polynomial) in (1..).zip(fixed[f..].chunks_mut(v)) {
            if self.own.contains(&post) {
                polynomial.fill(Some(1));
            }
            if self.short {
                polynomial[f..].fill(Some(0));
            }
        }
        fixed
    }

    /// The draws of a row under this condition.
    pub fn row_draws<const P: u32>(&self, shape: Shape, points: &[u32]) -> Vec<Vec<u32>> {
        let mut draws = vec![vec![]];
        for fixed in self.fixed(shape) {
            let choices = fixed.map_or(0..P, |number| number..number + 1);
            let longer = |draw: Vec<u32>| {
                let choices = choices.clone();
                choices.map(move |number| [draw.as_slice(), &[number]].concat())
            };
            draws = draws.into_iter().flat_map(longer).collect();
        }
        draws.retain(|draw| self.holds::<P>(shape, points, draw));
        draws
    }

    /// The draws of a triple under this condition, on each of its rows.
    pub fn triple_draws<const P: u32>(&self, shape: Shape, points: &[u32]) -> Vec<Vec<u32>> {
        let rows = self.row_draws::<P>(shape, points);
        let mut draws = vec![];
        for l in &rows {
            for l2 in &rows {
                let product = (Element::<P>::from(l[0]) * l2[0].into()).value();
                for l3 in rows.iter().filter(|l3| l3[0] == product) {
                    draws.push([l, l2, &l3[1..]].concat());
                }
            }
        }
        draws
    }
}

/// Calls `visit` with every choice of one draw for each raw row and each triple.
pub fn for_each_draw<'a>(
    points: &'a [u32],
    rows: &[&'a [Vec<u32>]],
    triples: &[&'a [Vec<u32>]],
    visit: &mut impl FnMut(&Draw),
) {
    let lists: Vec<&[Vec<u32>]> = [rows, triples].concat();
    if lists.iter().any(|list| list.is_empty()) {
        return;
    }
    let mut choice = vec![0; lists.len()];
    loop {
        let chosen: Vec<&[u32]> =
            lists.iter().zip(&choice).map(|(list, &index)| list[index].as_slice()).collect();
        visit(&Draw {
            points,
            rows: chosen[..rows.len()].to_vec(),
            triples: chosen[rows.len()..].to_vec(),
        });
        let Some(place) = (0..lists.len()).find(|&place| choice[place] + 1 < lists[place].len())
        else {
            return;
        };
        choice[place] += 1;
        choice[..place].fill(0);
    }
}
