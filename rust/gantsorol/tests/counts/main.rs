//! What a call's time can tell: valgrind's callgrind counts how often each instruction of each call of `calls.c` is carried
//! out. Where n, t and the number of check points, the posts, the rows, who is accepted and the refusals are fixed, no count follows a secret.

#[path = "../common/mod.rs"]
mod common;

use std::collections::{BTreeMap, BTreeSet};
use std::fs;
use std::path::Path;
use std::process::Command;

use common::programs::{compiled, ended, exports, C};

/// Secrets are drawn from so many seeds.
const SEEDS: usize = 20;

/// A call, and how often each of its instructions was carried out, by function and address.
struct Counted {
    call: String,
    times: BTreeMap<(String, String), u64>,
}

/// A part of callgrind's output, if it is a call's.
fn counted(part: &str) -> Option<Counted> {
    let (mut call, mut times, mut function, mut inside) = (None, BTreeMap::new(), "", false);
    for line in part.lines() {
        if let Some(name) = line.strip_prefix("desc: Trigger: --dump-after=") {
            call = Some(name.to_string());
        } else if let Some(name) = line.strip_prefix("fn=") {
            function = name;
        } else if line.starts_with("calls=") {
            // the next line has what was counted inside the function called
            inside = true;
        } else if line.starts_with("0x") {
            let (address, count) = line.split_once(' ').expect("an address has a count");
            if !inside {
                let count: u64 = count.parse().expect("a count is a number");
                *times.entry((function.to_string(), address.to_string())).or_default() += count;
            }
            inside = false;
        }
    }
    Some(Counted { call: call?, times })
}

/// The list of calls for each seed.
fn lists(name: &str, options: &[&str], [n, t, points]: [usize; 3]) -> Vec<Vec<Counted>> {
    let name = format!("{name}_{n}_{t}_{points}");
    let source = Path::new(env!("CARGO_MANIFEST_DIR")).join("tests/counts/calls.c");
    // No function is looked up at its first call: that would be counted.
    let program = compiled(&name, &source, &[&C, options, &["-Wl,-z,now"]].concat());
    let counts = Path::new(env!("CARGO_TARGET_TMPDIR")).join(format!("{name}.callgrind"));
    let mut valgrind = Command::new("valgrind");
    valgrind.args(["--tool=callgrind", "--toggle-collect=gantsorol_*", "--combine-dumps=yes"]);
    valgrind.args([
        "--dump-instr=yes",
        "--dump-line=no",
        "--compress-strings=no",
        "--compress-pos=no",
    ]);
    for function in exports(&program).keys().filter(|name| name.starts_with("gantsorol_")) {
        valgrind.arg(format!("--dump-after={function}"));
    }
    valgrind.arg(format!("--callgrind-out-file={}", counts.display())).arg(program);
    ended(valgrind.args([n, t, points, 0, SEEDS].map(|number| number.to_string())));
    let text = fs::read_to_string(&counts).expect("callgrind has written");
    let mut calls: Vec<Counted> = text.split("\npart: ").filter_map(counted).collect();
    assert!(!calls.is_empty() && calls.len().is_multiple_of(SEEDS), "{} calls", calls.len());
    let length = calls.len() / SEEDS;
    (0..SEEDS).map(|_| calls.drain(..length).collect()).collect()
}

/// The calls whose counts are not those of the first seed.
fn differing(lists: &[Vec<Counted>]) -> BTreeSet<&str> {
    let mut found = BTreeSet::new();
    for list in lists {
        for (counted, first) in list.iter().zip(&lists[0]) {
            assert_eq!(counted.call, first.call, "the calls are the same");
            assert!(!counted.times.is_empty(), "{} was counted", counted.call);
            if counted.times != first.times {
                found.insert(&counted.call[..]);
            }
        }
    }
    found
}

/// At each kind of size, with one check point a post and with two, with every call of the library.
#[test]
fn no_count_follows_a_secret() {
    for size in [[3, 1, 1], [3, 1, 2], [12, 5, 1], [12, 5, 2], [40, 20, 1], [40, 20, 2]] {
        let lists = lists("calls", &[], size);
        assert_eq!(differing(&lists), BTreeSet::new(), "{size:?}");
        let called: BTreeSet<String> = lists[0].iter().map(|call| call.call.clone()).collect();
        let exports = exports(Path::new(env!("GANTSOROL_ARCHIVE")));
        assert_eq!(called, exports.into_keys().collect(), "every call is made");
        for Counted { call, times } in &lists[0] {
            println!("{size:?} {call}: {} instructions", times.values().sum::<u64>());
        }
    }
}

/// The counts can differ: masks that add p only where a coefficient needs it are told apart.
#[test]
fn a_branch_on_a_coefficient_is_seen() {
    let lists = [1, 2].map(|points| lists("branching", &["-DBRANCHING"], [3, 1, points]));
    for lists in lists {
        assert_eq!(differing(&lists), BTreeSet::from(["gantsorol_branching_masks"]));
    }
}

/// Text has as many digits as its numbers need, so a count follows them where text is written or read, and nowhere else.
/// Lines are sent to all; a pack file is not.
#[test]
fn text_tells_how_many_digits_it_has() {
    let text =
        ["place", "read", "turn", "write_deal", "write_opening", "write_masks", "write_pack"];
    let text = text.map(|call| format!("gantsorol_{call}"));
    for points in [1, 2] {
        let lists = lists("any_digits", &["-DANY_DIGITS"], [3, 1, points]);
        assert_eq!(differing(&lists), text.iter().map(String::as_str).collect());
    }
}
