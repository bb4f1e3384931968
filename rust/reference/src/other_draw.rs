//! "Find the draw behind another secret": what a stolen set of posts gives away.

use crate::factory::expect_points;
use crate::field::{expect_elements, Element};
use crate::polynomial::{evaluate, times_difference};
use crate::refusal::{number_of, require, Refusal};
use crate::shape::{expect_length, Shape};

/// "The call returns a draw with the same check points that shows those posts the same record for the
/// wanted secret", for "one row only loaded and dealt, by none of the posts listed"; the refusal, 0 for
/// none.
///
/// `points` are the check points, k for each post; `draw`, and `out` for the new one, have the numbers
/// of a row's draw.
pub fn other_draw<const P: u32>(
    n: usize,
    t: usize,
    k: usize,
    points: &[u32],
    draw: &[u32],
    secret: u32,
    wanted: u32,
    posts: &[usize],
    out: &mut [u32],
) -> u8 {
    number_of(try_other_draw::<P>((n, t, k), points, draw, [secret, wanted], posts, out))
}

fn try_other_draw<const P: u32>(
    (n, t, k): (usize, usize, usize),
    points: &[u32],
    draw: &[u32],
    [secret, wanted]: [u32; 2],
    posts: &[usize],
    out: &mut [u32],
) -> Result<(), Refusal> {
    let shape = Shape::checked(n, t, k)?;
    expect_points::<P>(shape, points)?;
    expect_length(draw, shape.row_draw())?;
    expect_length(out, shape.row_draw())?;
    expect_elements::<P>(&[secret, wanted])?;
    expect_elements::<P>(draw)?;
    expect_rising(shape, posts)?;
    require(posts.len() <= t || secret == wanted, Refusal::TooManyPosts)?;
    out.copy_from_slice(draw);
    // "If the two secrets are equal it returns the draw it was given, even for all n posts."
    if secret != wanted {
        change::<P>(shape, points, Element::from(wanted) - secret.into(), posts, out);
    }
    Ok(())
}

/// Check 18: "a list of posts that isn't rising or leaves 1..n".
fn expect_rising(shape: Shape, posts: &[usize]) -> Result<(), Refusal> {
    let rising = posts.windows(2).all(|pair| pair[0] < pair[1]);
    let inside = posts.iter().all(|post| (1..=shape.posts()).contains(post));
    require(rising && inside, Refusal::PostList)
}

/// "f, then each vi, changes by the polynomial of least degree that does this."
///
/// The dealer's c stays, so f(0) changes as the secret does; the listed posts' shares stay. So do the
/// sums m, which the listed posts see: a vi(0) changes against f(i), and the listed posts' check points
/// don't show it.
fn change<const P: u32>(
    shape: Shape,
    points: &[u32],
    difference: Element<P>,
    posts: &[usize],
    draw: &mut [u32],
) {
    let (f, v) = draw.split_at_mut(shape.dealer_coefficients());
    let numbers = posts.iter().map(|&post| Element::new(post as u64));
    let of_f = multiple(difference, &one_at_zero(numbers));
    add(f, &of_f);
    // "With no posts listed only f changes."
    if posts.is_empty() {
        return;
    }
    let unseen = one_at_zero(distinct_points(shape, points, posts));
    for (polynomial, post) in v.chunks_exact_mut(shape.coefficients()).zip(1..) {
        // A listed post's share stays, and with it its polynomial.
        let of_share = evaluate(&of_f, Element::new(post));
        add(polynomial, &multiple(Element::ZERO - of_share, &unseen));
    }
}

/// The check points of the listed posts, equal ones once.
fn distinct_points<const P: u32>(
    shape: Shape,
    points: &[u32],
    posts: &[usize],
) -> impl Iterator<Item = Element<P>> {
    let listed = posts.iter().flat_map(|&post| shape.points_of(points, post));
    let mut distinct: Vec<u32> = listed.copied().collect();
    distinct.sort_unstable();
    distinct.dedup();
    distinct.into_iter().map(Element::from)
}

/// The polynomial of least degree that is 1 at 0 and 0 at these numbers, which differ and aren't 0.
fn one_at_zero<const P: u32>(zeros: impl Iterator<Item = Element<P>>) -> Vec<Element<P>> {
    let product = zeros.fold(vec![Element::ONE], |product, x| times_difference(&product, x));
    multiple(product[0].inverse(), &product)
}

fn multiple<const P: u32>(factor: Element<P>, polynomial: &[Element<P>]) -> Vec<Element<P>> {
    polynomial.iter().map(|&coefficient| factor * coefficient).collect()
}

/// Adds a polynomial to one with no fewer coefficients.
fn add<const P: u32>(coefficients: &mut [u32], added: &[Element<P>]) {
    for (coefficient, &added) in coefficients.iter_mut().zip(added) {
        *coefficient = (Element::from(*coefficient) + added).value();
    }
}
