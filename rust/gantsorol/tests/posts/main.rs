//! Posts that are programs of their own, in C and in Rust, and talk in lines over pipes: each loads its pack file, they open a
//! charge and prove a relation. One may be silent, one may lie, one may lose its power.

#[path = "../common/mod.rs"]
mod common;
mod station;

use std::fs;
use std::io::{self, Write};
use std::process::{Command, Stdio};
use std::sync::mpsc::channel;

use common::programs::{compiled, repository, CPP};
use station::{in_rust, programs, Event, Kind, Station};

fn as_it_is(_: usize, line: &str) -> String {
    line.to_string()
}

/// What these posts say.
fn said(posts: &[usize], what: &str) -> Vec<String> {
    posts.iter().map(|post| format!("post {post}: {what}")).collect()
}

#[test]
fn three_posts_in_c_open_the_charge_and_prove_the_relation() {
    let station = Station::new("posts_in_c", [12, 35, 420]);
    let posts = [1, 2, 3].map(|post| (post, Kind::C));
    let expected = said(&[1, 2, 3], "the charge is 500, the fee is right");
    assert_eq!(station.run(&posts, as_it_is), expected);
    // Nothing is left of what they kept.
    assert!([1, 2, 3].iter().all(|&post| !station.state(post).exists()));
}

#[test]
fn three_posts_in_rust_see_a_wrong_fee() {
    let station = Station::new("posts_in_rust", [12, 35, 421]);
    let posts = [1, 2, 3].map(|post| (post, Kind::Rust));
    let expected = said(&[1, 2, 3], "the charge is 500, the fee is not right");
    assert_eq!(station.run(&posts, as_it_is), expected);
    assert!([1, 2, 3].iter().all(|&post| !station.state(post).exists()));
}

/// Post 2 is silent.
#[test]
fn two_posts_of_either_language_are_enough() {
    let station = Station::new("posts_of_both", [7, 9, 63]);
    let expected = said(&[1, 3], "the charge is 143, the fee is right");
    assert_eq!(station.run(&[(1, Kind::C), (3, Kind::Rust)], as_it_is), expected);
}

/// The last number of every line of post 3 is another: posts 1 and 2 reject it and have each other.
#[test]
fn a_post_that_lies_is_not_accepted() {
    let station = Station::new("posts_and_a_liar", [12, 35, 420]);
    let lie = |from: usize, line: &str| match from {
        3 => {
            let (before, last) = line.trim().rsplit_once(',').expect("a line has numbers");
            let last: u32 = last.parse().expect("a number");
            format!("{before},{}\n", (last + 1) % gantsorol::MODULUS)
        }
        _ => line.to_string(),
    };
    let opened = station.run(&[(1, Kind::C), (2, Kind::Rust), (3, Kind::C)], lie);
    assert_eq!(opened, said(&[1, 2, 3], "the charge is 500, the fee is right"));
}

/// The lines of a post that hears the deals alone, up to its masks; then it is gone.
fn cut_off(station: &Station, kind: Kind) -> Vec<String> {
    let (events, told) = channel();
    let mut input = station.start(1, kind, &events);
    drop(events);
    input.write_all(station.deals().as_bytes()).expect("it takes the deals");
    drop(input);
    let lines = told.into_iter().filter_map(|event| match event {
        Event::Line(_, line) => Some(line),
        Event::Ended(_, why) => {
            assert!(why.contains("the lines ended before"), "{why}");
            None
        }
    });
    lines.collect()
}

/// A post that comes back sends the masks that it had sent, and no others: a triple serves once.
#[test]
fn after_a_power_loss_a_post_sends_the_same_lines() {
    for (kind, name) in [(Kind::C, "posts_power_c"), (Kind::Rust, "posts_power_rust")] {
        let station = Station::new(name, [12, 35, 420]);
        let lines = cut_off(&station, kind);
        assert_eq!(lines.len(), 2, "{lines:?}");
        assert!(lines.iter().all(|line| line.starts_with("M,")));
        fs::remove_file(station.pack(1)).expect("a pack file is needed once");
        assert_eq!(cut_off(&station, kind), lines);
        let posts = [(1, kind), (2, Kind::C), (3, Kind::Rust)];
        let expected = said(&[1, 2, 3], "the charge is 500, the fee is right");
        assert_eq!(station.run(&posts, as_it_is), expected);
    }
}

/// Where the caller is barred from one factor, no post sends a polynomial of what is made from it: all that is sent are masks.
#[test]
fn for_a_caller_that_is_barred_nothing_is_sent() {
    let station = Station::new("posts_barred", [12, 35, 420]);
    let deals = station.deals().replace("A,1,1\n", "A,1,2,3\n");
    assert_ne!(deals, station.deals());
    let (events, told) = channel();
    let posts = [(1, Kind::C), (2, Kind::Rust)];
    let mut inputs =
        Vec::from(posts.map(|(post, kind)| (post, station.start(post, kind, &events))));
    drop(events);
    for (_, input) in &mut inputs {
        input.write_all(deals.as_bytes()).expect("it takes the deals");
    }
    let mut masks = 0;
    for event in told {
        match event {
            Event::Line(from, line) => {
                assert!(line.starts_with("M,"), "{line}");
                let others = inputs.iter_mut().filter(|(post, _)| *post != from);
                others.for_each(|(_, input)| input.write_all(line.as_bytes()).expect("it waits"));
                masks += 1;
                // Both have heard both masks of each other: nothing more is to come.
                if masks == 4 {
                    inputs.clear();
                }
            }
            Event::Ended(post, why) => {
                assert!(why.contains("the lines ended before"), "{why}");
                let said = why.contains("the post that calls for an opening is not one of");
                assert!(said || post == 2, "{why}");
            }
        }
    }
    assert_eq!(masks, 4);
}

#[test]
fn wrong_packs_and_plans_are_refused() {
    let station = Station::new("posts_wrong", [1, 2, 2]);
    let (pack, state) = (station.folder.join("wrong.txt"), station.folder.join("state"));
    let right = fs::read_to_string(station.pack(1)).expect("a file");
    let other = "S,4,1,1,5\n".to_string();
    let twice = format!("{right}{}\n", right.lines().nth(1).expect("a row"));
    let letter = right.replacen('R', "Q", 1);
    let number = right.replacen("R,", "R,x", 1);
    for text in [String::new(), other, twice, letter, number] {
        fs::write(&pack, text).expect("a file can be written");
        let mut command = Command::new(&programs()[1]);
        let ran = command.arg(&pack).arg(&state).stdin(Stdio::null()).output().expect("it runs");
        assert!(!ran.status.success() && !ran.stderr.is_empty());
        assert!(in_rust::told(&pack, &state, io::empty(), io::sink()).is_err());
        assert!(!state.exists());
    }
}

/// The programs are C++ too.
#[test]
fn the_programs_compile_as_cpp() {
    for name in ["station", "post", "word", "works"] {
        compiled(&format!("{name}_as_cpp"), &repository().join(format!("examples/{name}.c")), &CPP);
    }
}
