//! Arithmetic on whole rows: a row is one post's part of one shared number.

use crate::field::Element;
use crate::shape::Shape;

/// The one sum of rows, below the check of marks: "a plus s times b, s a public element, element by
/// element over whole rows", and the fee, "added to m1..mn of the new row and to nothing else".
pub(crate) fn weighted_sum<const P: u32>(
    shape: Shape,
    a: &[u32],
    scale: Element<P>,
    b: &[u32],
    fee: Element<P>,
) -> Vec<u32> {
    let terms = a.iter().zip(b);
    let mut sum: Vec<u32> =
        terms.map(|(&a, &b)| (Element::from(a) + scale * b.into()).value()).collect();
    add_public(shape, &mut sum, fee);
    sum
}

/// a − b, element by element.
pub(crate) fn minus<const P: u32>(shape: Shape, a: &[u32], b: &[u32]) -> Vec<u32> {
    weighted_sum::<P>(shape, a, Element::ZERO - Element::ONE, b, Element::ZERO)
}

/// Adds a public number to m1..mn.
pub(crate) fn add_public<const P: u32>(shape: Shape, row: &mut [u32], number: Element<P>) {
    for sum in &mut row[shape.sums()] {
        *sum = (Element::from(*sum) + number).value();
    }
}
