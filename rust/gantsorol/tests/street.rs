//! The street program, proved and built by the gate, and the second implementation: the same output for
//! random and mutated inputs and for the stored ones of `street_inputs/`; and the README's examples.
//! `GANTSOROL_STREET` names the program.

mod common;

use std::fs;
use std::path::Path;
use std::process::Command;

use common::{programs, seeds, street_program};
use reference::random::{compare_street, street_input};
use reference::{Library, REFERENCE};

/// What the street program prints.
fn printed(input: &[u8]) -> Vec<u8> {
    programs::printed(&mut Command::new(street_program()), input)
}

#[test]
fn the_examples_of_the_readme() {
    for (input, expected) in [
        (
            include_str!("../../../examples/station.txt"),
            include_str!("../../../examples/station.out"),
        ),
        (
            include_str!("../../../examples/charge.txt"),
            include_str!("../../../examples/charge.out"),
        ),
    ] {
        let ours = printed(input.as_bytes());
        assert_eq!(String::from_utf8_lossy(&ours), expected);
    }
}

/// What `rt check` runs the program on, document 01's example, a charge and a sum of two rows, is what the second implementation prints too.
#[test]
fn the_run_of_the_crate() {
    let (input, expected) = (
        include_str!("../../../crates/street/stdin"),
        include_str!("../../../crates/street/stdout"),
    );
    assert_eq!(String::from_utf8_lossy(&printed(input.as_bytes())), expected);
    assert_eq!(String::from_utf8_lossy(&REFERENCE.street(input.as_bytes())), expected);
}

/// Each `NAME.txt` of `street_inputs/` gives its `NAME.out`, by the program and by the second implementation.
#[test]
fn the_stored_inputs() {
    let stored = Path::new(env!("CARGO_MANIFEST_DIR")).join("tests/street_inputs");
    let mut inputs = 0;
    for entry in fs::read_dir(stored).expect("the folder is there") {
        let path = entry.expect("its files are").path();
        if path.extension().is_none_or(|extension| extension != "txt") {
            continue;
        }
        let name = path.display();
        let input = fs::read(&path).expect("an input can be read");
        let expected = fs::read(path.with_extension("out")).expect("an output can be read");
        assert!(printed(&input) == expected, "{name}, by the program");
        assert!(REFERENCE.street(&input) == expected, "{name}, by the second implementation");
        inputs += 1;
    }
    assert_eq!(inputs, 38, "stored inputs");
}

/// Rides × rate + fee by three runs of the program, with one check point a post and with two: the `M` lines that each
/// reads of another post are those which that post's run prints.
#[test]
fn the_charge_at_three_posts() {
    for charge in ["charge", "two_points"] {
        each_reads_the_others(charge);
    }
}

fn each_reads_the_others(charge: &str) {
    let lines = |name: &str| -> Vec<String> {
        let path = Path::new(env!("CARGO_MANIFEST_DIR")).join("tests/street_inputs").join(name);
        let text = fs::read_to_string(path).expect("a stored text can be read");
        text.lines().filter(|line| line.starts_with("M,")).map(str::to_owned).collect()
    };
    let (mut told, mut heard) = (Vec::new(), Vec::new());
    for post in 1..=3 {
        told.push(lines(&format!("{charge}{post}.out")));
        heard.push(lines(&format!("{charge}{post}.txt")));
    }
    for (post, lines) in heard.iter().enumerate() {
        let others: Vec<_> = told.iter().enumerate().filter(|(i, _)| *i != post).collect();
        assert!(!told[post].is_empty(), "post {} prints its masks", post + 1);
        for (i, sent) in others {
            assert!(
                sent.iter().all(|line| lines.contains(line)),
                "post {} reads {}",
                post + 1,
                i + 1
            );
        }
    }
}

#[test]
fn random_inputs_through_both_programs() {
    for seed in seeds(1_500) {
        // now and then far more than one chunk of 2,048 bytes
        let length = if seed % 50 == 0 { 2_000 } else { 60 };
        let input = street_input(seed, length);
        if let Some(difference) = compare_street(&input, printed, |input| REFERENCE.street(input)) {
            panic!("seed {seed}, the verified program on the left:\n{difference}");
        }
    }
}
