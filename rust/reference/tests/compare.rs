//! The comparison finds what differs, and nothing where nothing does.

use reference::random::{
    compare_paperwork, compare_script, compare_street, paperwork, script, street_input,
};
use reference::{Library, Reference, REFERENCE};

/// The same library over another prime: a subtle mistake in every call.
const OTHER: Reference<2_147_483_629> = Reference;

#[test]
fn a_library_agrees_with_itself() {
    for seed in 0..50 {
        assert!(compare_script(&script(seed, 40), &REFERENCE, &REFERENCE).is_none());
        assert!(compare_paperwork(&paperwork(seed), &REFERENCE, &REFERENCE).is_none());
        let program = |input: &[u8]| REFERENCE.street(input);
        assert!(compare_street(&street_input(seed, 40), program, program).is_none());
    }
}

#[test]
fn another_prime_is_found_and_cut_down_to_a_few_calls() {
    let mut found = 0;
    for seed in 0..20 {
        if let Some(difference) = compare_script(&script(seed, 40), &REFERENCE, &OTHER) {
            found += 1;
            assert!(difference.case.len() <= 6, "{difference}");
            assert!(!difference.parting.is_empty());
            assert!(difference.to_string().contains("differs: "));
        }
    }
    assert!(found > 10, "only {found} of 20 scripts tell the primes apart");
}

#[test]
fn another_prime_is_found_in_paperwork_and_on_the_street() {
    let papers =
        (0..2000).filter_map(|seed| compare_paperwork(&paperwork(seed), &REFERENCE, &OTHER));
    assert!(papers.count() > 100);
    let (left, right) =
        (|input: &[u8]| REFERENCE.street(input), |input: &[u8]| OTHER.street(input));
    let differences =
        (0..50).filter_map(|seed| compare_street(&street_input(seed, 60), left, right));
    let lengths: Vec<usize> = differences.map(|difference| difference.case.len()).collect();
    assert!(lengths.len() > 10 && lengths.iter().all(|&length| length < 40), "{lengths:?}");
}
