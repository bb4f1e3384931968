//! Polynomials over the field, as lists of coefficients, constant first.

use crate::field::Element;

/// The value of the polynomial at `x`, by Horner's rule.
pub fn evaluate<const P: u32>(
    coefficients: &[impl Copy + Into<Element<P>>],
    x: Element<P>,
) -> Element<P> {
    coefficients
        .iter()
        .rev()
        .fold(Element::ZERO, |value, &coefficient| value * x + coefficient.into())
}

/// The polynomial of least degree through `points`, whose abscissae differ.
///
/// Point by point, a multiple of the product of all z − x before is added, which changes nothing at
/// the points before.
///
/// Request (vi) takes the inverses of post numbers and of their differences from a table. Here the
/// general inverse stays, which gives the same numbers over every prime.
pub fn interpolate<const P: u32>(points: &[(Element<P>, Element<P>)]) -> Vec<Element<P>> {
    let mut polynomial = vec![];
    let mut product = vec![Element::ONE];
    for &(x, y) in points {
        let missing = y - evaluate(&polynomial, x);
        let multiple = missing * evaluate(&product, x).inverse();
        polynomial.push(Element::ZERO);
        for (coefficient, &term) in polynomial.iter_mut().zip(&product) {
            *coefficient = *coefficient + multiple * term;
        }
        product = times_difference(&product, x);
    }
    polynomial
}

/// The polynomial times z − x.
pub fn times_difference<const P: u32>(polynomial: &[Element<P>], x: Element<P>) -> Vec<Element<P>> {
    let times_z = [&[Element::ZERO], polynomial].concat();
    let times_x = polynomial.iter().map(|&coefficient| x * coefficient).chain([Element::ZERO]);
    times_z.into_iter().zip(times_x).map(|(up, down)| up - down).collect()
}

#[cfg(test)]
mod tests {
    use super::*;
    use crate::{MAX_POSTS, MODULUS};

    #[test]
    fn interpolation_gives_back_the_polynomial() {
        let f = [4, 0, 6, 1];
        let at = |x: u32| (Element::<11>::from(x), evaluate(&f, x.into()));
        let points = [at(1), at(9), at(3), at(7), at(10)];
        let coefficients = |count: usize| -> Vec<u32> {
            interpolate(&points[..count]).into_iter().map(Element::value).collect()
        };
        assert_eq!(coefficients(4), f);
        assert_eq!(coefficients(5), [4, 0, 6, 1, 0]);
        assert_ne!(coefficients(3), f[..3]);
        for (x, y) in &points[..3] {
            assert_eq!(evaluate(&interpolate(&points[..3]), *x), *y);
        }
        assert_eq!(interpolate::<11>(&[]), []);
    }

    /// The rule of request (vi)'s table: "each entry × its index is 1 modulo p".
    #[test]
    fn post_numbers_and_their_differences_have_inverses() {
        for number in 1..=MAX_POSTS as u64 {
            let number = Element::<MODULUS>::new(number);
            let negative = Element::ZERO - number;
            assert_eq!(number * number.inverse(), Element::ONE);
            assert_eq!(negative.inverse(), Element::ZERO - number.inverse());
        }
    }

    #[test]
    fn the_empty_polynomial_is_zero() {
        assert_eq!(evaluate::<5>(&[0; 0], Element::ONE), Element::ZERO);
    }
}
