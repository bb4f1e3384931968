//! What a lying post sends, as a function of all that its group has seen.

use reference::Element;

use crate::record::View;

/// Some number that follows from everything seen.
fn hash(record: &[u8], salt: u32) -> u32 {
    let mix = |hash: u32, &byte: &u8| (hash ^ u32::from(byte)).wrapping_mul(16_777_619);
    let hash = record.iter().fold(2_166_136_261 ^ salt.wrapping_mul(40_503), mix);
    hash ^ hash >> 15
}

/// What the rules would have it send, though nobody called for it; of an empty row some elements.
pub fn truth<const P: u32>(view: &View) -> Option<Vec<u32>> {
    Some(view.own.iter().map(|&number| number % P).collect())
}

pub fn silence(_: &View) -> Option<Vec<u32>> {
    None
}

/// Any polynomial, another for each record.
pub fn anything<const P: u32>(view: &View) -> Option<Vec<u32>> {
    let coefficients = 0..view.own.len() as u32;
    Some(coefficients.map(|place| hash(view.record, place) % P).collect())
}

/// The true polynomial plus a multiple of one that is 0 where it guesses the others' check points: it is
/// accepted by those whose points were guessed, and shows them a false share.
pub fn guess<const P: u32>(view: &View) -> Option<Vec<u32>> {
    let mut added = vec![Element::<P>::from(1 + hash(view.record, 0) % (P - 1))];
    for place in 1..view.own.len() as u32 {
        let point = 1 + hash(view.record, place) % (P - 1);
        added = reference::polynomial::times_difference(&added, point.into());
    }
    let sum = |(&own, added): (&u32, Element<P>)| (Element::from(own) + added).value();
    Some(view.own.iter().zip(added).map(sum).collect())
}

/// Silent after every third record or so, else a guess.
pub fn moody<const P: u32>(view: &View) -> Option<Vec<u32>> {
    guess::<P>(view).filter(|_| !hash(view.record, 9).is_multiple_of(3))
}

/// What somebody else said last; at first the truth.
pub fn echo<const P: u32>(view: &View) -> Option<Vec<u32>> {
    view.said.last().map_or_else(|| truth::<P>(view), |(_, polynomial)| Some(polynomial.clone()))
}
