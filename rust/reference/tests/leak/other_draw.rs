//! Request (xiv), over all draws of a small station: the draw behind another secret shows the same
//! record, by the polynomials of least degree; with more than t posts there is none.

use super::*;
use draws::Draw;
use reference::other_draw;

const N: usize = 2;
const T: usize = 1;

type Draws = HashMap<Vec<u8>, Vec<Vec<u32>>>;

fn dealt(k: usize) -> Plan {
    Plan { k, ..plan(N, T, &[raw(0)], &[], &[LoadRow(0), Deal(0)]) }
}

fn record<const P: u32>(
    station: &mut Station<P>,
    points: &[u32],
    draw: &[u32],
    secret: u32,
) -> Vec<u8> {
    station.record(&Draw { points, rows: vec![draw], triples: vec![] }, &[secret]).to_vec()
}

/// All draws, by the record that they show the group with a secret.
fn by_record<const P: u32>(plan: &Plan, points: &[u32], group: &[usize], secret: u32) -> Draws {
    let shape = Shape::checked(N, T, plan.k).unwrap();
    let mut station = Station::<P>::new(plan, group);
    let mut draws = Draws::new();
    for draw in ALL.row_draws::<P>(shape, points) {
        let record = record(&mut station, points, &draw, secret);
        draws.entry(record).or_default().push(draw);
    }
    draws
}

/// How many coefficients each polynomial changes by, f's first.
fn lengths(shape: Shape, draw: &[u32], other: &[u32]) -> Vec<usize> {
    let (f, v) = (shape.dealer_coefficients(), shape.coefficients());
    let parts = [0..f, f..f + v, f + v..f + 2 * v];
    let last = |part: std::ops::Range<usize>| {
        let place = part.clone().rev().find(|&place| draw[place] != other[place]);
        place.map_or(0, |place| place + 1 - part.start)
    };
    parts.map(last).to_vec()
}

/// Checks the call for every so many draws.
fn check<const P: u32>(k: usize, points: &[u32], group: &[usize], secrets: [u32; 2], every: usize) {
    let (plan, shape) = (dealt(k), Shape::checked(N, T, k).unwrap());
    let [secret, wanted] = secrets;
    let behind_wanted = by_record::<P>(&plan, points, group, wanted);
    let mut station = Station::<P>::new(&plan, group);
    for draw in ALL.row_draws::<P>(shape, points).iter().step_by(every) {
        let seen = record(&mut station, points, draw, secret);
        let mut other = vec![P; draw.len()];
        let refusal = other_draw::<P>(N, T, k, points, draw, secret, wanted, group, &mut other);
        let Some(candidates) = behind_wanted.get(&seen) else {
            // "No such draw exists where it gives 19."
            assert_eq!((refusal, other), (19, vec![P; draw.len()]));
            continue;
        };
        assert_eq!(refusal, 0);
        assert!(candidates.contains(&other));
        let least = lengths(shape, draw, &other);
        let of = |candidate: &&Vec<u32>| lengths(shape, draw, candidate);
        let no_less = |(a, b): (&usize, &usize)| a <= b;
        assert!(candidates.iter().all(|other| least.iter().zip(&of(&other)).all(no_less)));
        assert_eq!(candidates.iter().filter(|other| of(other) == least).count(), 1);
    }
}

#[test]
fn the_one_draw_of_least_degree() {
    for points in [[1, 3], [2, 2]] {
        for group in [&[] as &[usize], &[1], &[2], &[1, 2]] {
            check::<5>(1, &points, group, [2, 4], 97);
            check::<5>(1, &points, group, [3, 3], 997);
        }
    }
}

/// Of equal check points there are more draws than one.
#[test]
fn two_points() {
    for points in [[1, 1, 2, 1], [1, 2, 2, 2], [2, 2, 1, 1]] {
        for group in [&[] as &[usize], &[1], &[2], &[1, 2]] {
            check::<3>(2, &points, group, [2, 1], 13);
            check::<3>(2, &points, group, [1, 1], 997);
        }
    }
}
