//! The verified library and the second implementation, call by call: refusal, value, session, every
//! number of every list. A difference is printed as the shortest case that shows it.

#[path = "../common/mod.rs"]
mod common;

mod callers;
mod dealers;
mod odd;
mod one_list;
mod other_draw;
mod paperwork;

use common::{seeds, Verified};
use gantsorol::MAX_POSTS;
use reference::random::{
    compare_paperwork, compare_script, script, script_for, wild_calls, wild_state, Call, Met, Rng,
    Script, Seen, State, CALL_REFUSALS,
};
use reference::{random, Reference, Shape, REFERENCE};

/// Whether the seeds are the gate's, so that what they reach is known.
fn fixed_seeds() -> bool {
    let set = |name| std::env::var_os(name).is_some();
    !set("GANTSOROL_SEED") && !set("GANTSOROL_CASES")
}

/// Compares a script, and checks the valid steps against what the works knows.
#[track_caller]
fn compare(seed: u64, script: &Script, seen: &mut Seen) {
    if let Some(difference) = compare_script(script, &Verified, &REFERENCE) {
        panic!("seed {seed}, the verified library on the left:\n{difference}");
    }
    for (step, outcome) in script.steps.iter().zip(script.replay(&Verified)) {
        seen.note(&step.call, outcome.refusal);
        if !step.trial {
            let answer = (outcome.refusal, outcome.value);
            assert_eq!(answer, (step.refusal, step.opens_to.unwrap_or(0)), "seed {seed}: {step:?}");
        }
    }
}

#[test]
fn random_sessions() {
    let mut seen = Seen::default();
    for seed in seeds(4_000) {
        compare(seed, &script(seed, 60), &mut seen);
    }
    if fixed_seeds() {
        seen.assert_met(CALL_REFUSALS);
    }
}

/// So many posts, this t, and so many check points a post.
fn shape(n: usize, t: usize, points: usize) -> Shape {
    Shape::checked(n, t, points).expect("the shape is right")
}

/// The n, t and number of check points of each script go through all of them, one after the other.
#[test]
fn every_n_and_t_with_one_point_and_with_two() {
    let pairs = (2..=32).flat_map(|n| (1..n).map(move |t| (n, t)));
    let shapes: Vec<Shape> = pairs.flat_map(|(n, t)| [1, 2].map(|k| shape(n, t, k))).collect();
    let mut seen = Seen::default();
    for seed in seeds(4 * shapes.len() as u64) {
        let shape = shapes[(seed % shapes.len() as u64) as usize];
        compare(seed, &script_for(&mut Rng::new(seed), shape, 30), &mut seen);
    }
    if fixed_seeds() {
        seen.assert_met(&[
            ("Open", &[0, 9]),
            ("Masks", &[0]),
            ("OpenMasks", &[0, 9]),
            ("Multiply", &[0]),
        ]);
    }
}

/// What calls of a square's station meet; 1 to 4 are rare, and the same test for every call.
const SQUARES: Met = &[
    ("NewSession", &[0, 1, 2, 3, 4]),
    ("LoadRow", &[0, 1, 2, 3, 4, 5, 6, 7, 8]),
    ("LoadTriple", &[0, 1, 2, 3, 4, 5, 6, 7, 8]),
    ("Deal", &[0, 1, 2, 3, 4, 5, 6, 7, 8]),
    ("OpeningMessage", &[0, 5, 6, 7, 8, 15]),
    ("SetCallers", &[0, 7, 10, 11]),
    ("PlaceLine", &[0, 10, 16, 17]),
    ("Turn", &[0, 5, 7, 10, 11, 16]),
    ("Open", &[0, 5, 6, 7, 8, 9, 13]),
    ("Linear", &[0, 5, 6, 7, 8]),
    ("Masks", &[0, 5, 6, 7, 8]),
    ("OpenMasks", &[0, 5, 6, 7, 8, 9, 13]),
    // 5 of a multiply: callers.rs, at every number of posts
    ("Multiply", &[0, 7]),
    ("RelationMasks", &[0, 5, 6, 7, 8, 14]),
    ("RelationFinish", &[0, 5, 6, 7, 8, 9, 13, 14]),
];

/// Stations of a square, 33 to 255 posts: t small, in the middle and n − 1, each with one check point
/// a post and with two. Valid, refused and damaged calls, as in every script.
#[test]
fn squares() {
    let mut seen = Seen::default();
    for seed in seeds(330) {
        let mut rng = Rng::new(seed);
        let n = if rng.one_in(4) { MAX_POSTS } else { rng.between(33, MAX_POSTS) };
        let t = match seed % 3 {
            0 => rng.between(1, 4),
            1 => rng.between(n / 2 - 2, n / 2 + 2),
            _ => n - 1,
        };
        let points = 1 + usize::from(seed % 2 == 1);
        compare(seed, &script_for(&mut rng, shape(n, t, points), 25), &mut seen);
    }
    if fixed_seeds() {
        seen.assert_met(SQUARES);
    }
}

/// Makes a call on both libraries, which must answer alike; the refusal.
#[track_caller]
fn compare_call(seed: u64, call: &Call, state: &State) -> u8 {
    let (ours, second) = (call.perform(&Verified, state), call.perform(&REFERENCE, state));
    assert_eq!(ours, second, "seed {seed}: {call:?} on {state:?}");
    ours.refusal
}

/// Every number at random, most of them wild, in calls that never were part of a session.
#[test]
fn wild_arguments() {
    for seed in seeds(100_000) {
        let mut rng = Rng::new(seed);
        let state = wild_state(&mut rng, seed % 2 == 0);
        for call in wild_calls(&mut rng) {
            compare_call(seed, &call, &state);
        }
    }
}

/// The comparison can fail: over another prime nearly every script ends in a short difference.
#[test]
fn another_prime_is_told_apart() {
    let other = Reference::<2_147_483_629>;
    let mut found = 0;
    for seed in 0..20 {
        if let Some(difference) = compare_script(&script(seed, 60), &Verified, &other) {
            found += 1;
            assert!(difference.case.len() <= 6, "{difference}");
        }
    }
    assert!(found > 10, "only {found} of 20 scripts tell the primes apart");
    let papers = (0..2000)
        .filter(|&seed| compare_paperwork(&random::paperwork(seed), &Verified, &other).is_some());
    assert!(papers.count() > 100);
}
