//! The room that each call takes: how deep it goes into the stack, by `room.c` around the list of calls of `counts/calls.c`, and the
//! bytes of code and constants that a program with this call alone links. The table:
//!
//!     cargo test --release --test room -- --nocapture

#[path = "../common/mod.rs"]
mod common;

use std::collections::BTreeMap;
use std::fs;
use std::path::{Path, PathBuf};
use std::process::Command;

use common::programs::{compiled, ended, exports, repository};
use gantsorol::MOST_STACK;

/// n and t; each with one check point a post and with two, and a call's room is the larger of them.
const SIZES: [[usize; 2]; 3] = [[3, 1], [32, 31], [255, 254]];

/// The calls that open, and by how much a small station's stack stays below that of the most posts: their rooms are not on it.
const OPENING: [&str; 3] = ["gantsorol_open", "gantsorol_collect", "gantsorol_relation_finish"];
const SPARED: usize = 8_000;

/// No other call has so much on a small station's stack: less than one row of the most posts, 3,060 bytes. It was 2,000 before posts
/// had two check points: an opening takes 2,072 where it took 1,848, since rooms go by the number of posts and not of points. Those
/// that may have two sessions, their terms or the numbers of a pack file's line there.
const SMALL: usize = 2_100;
const MORE: [&str; 4] = [
    "gantsorol_collect",
    "gantsorol_relation_finish",
    "gantsorol_relation_masks",
    "gantsorol_write_pack",
];

/// The calls that look at the sets of posts, or write them, may have the 3,072 bytes of all sets there, as often as this allows;
/// before the session had them an opening message and a linear took 232, a multiply 1,000.
const SETS: [(&str, usize); 4] = [
    ("gantsorol_opening_message", 3_400),
    ("gantsorol_access", 4_500),
    ("gantsorol_linear", 3_400),
    ("gantsorol_multiply", 7_500),
];

/// The library's calls.
fn calls() -> Vec<String> {
    exports(Path::new(env!("GANTSOROL_ARCHIVE"))).into_keys().collect()
}

/// The list of calls, for stations of up to 255 posts, with each call measured.
fn measuring() -> PathBuf {
    let tests = Path::new(env!("CARGO_MANIFEST_DIR")).join("tests");
    let listed: String = calls().iter().map(|call| format!("CALL({call})")).collect();
    let mut options = vec!["-std=gnu99".to_string(), "-DMOST=255".to_string()];
    // No function is looked up at its first call: that takes stack too.
    options.extend([format!("-DCALLS={listed}"), "-Wl,-z,now".to_string()]);
    options.extend(calls().iter().map(|call| format!("-Wl,--wrap={call}")));
    options.push(tests.join("room/room.c").display().to_string());
    let options: Vec<&str> = options.iter().map(String::as_str).collect();
    compiled("room", &tests.join("counts/calls.c"), &options)
}

/// The most stack of each call, in bytes.
fn stack(program: &Path, [n, t]: [usize; 2], points: usize) -> BTreeMap<String, usize> {
    let arguments = [n, t, points, 0, 2].map(|number| number.to_string());
    let printed = ended(Command::new(program).args(arguments)).stdout;
    let printed = String::from_utf8(printed).expect("the program prints text");
    let lines = printed.lines().filter_map(|line| line.split_once(' '));
    lines.map(|(call, most)| (call.to_string(), most.parse().expect("a number"))).collect()
}

/// The bytes of code and constants of a program that has these calls and does nothing.
fn linked(calls: &[String]) -> usize {
    let source = Path::new(env!("CARGO_TARGET_TMPDIR")).join("room_empty.c");
    fs::write(&source, "int main(void) { return 0; }\n").expect("a file can be written");
    let kept: Vec<String> = calls.iter().map(|call| format!("-Wl,-u,{call}")).collect();
    let options = kept.iter().map(String::as_str).chain(["-Wl,--gc-sections"]);
    let program = compiled("room_linked", &source, &options.collect::<Vec<_>>());
    let printed = String::from_utf8(ended(Command::new("size").arg("-A").arg(program)).stdout);
    let printed = printed.expect("size prints text");
    let sections = printed.lines().map(|line| line.split_whitespace().collect::<Vec<_>>());
    let counted = sections.filter(|line| matches!(line[..], [".text" | ".rodata", ..]));
    counted.map(|line| line[1].parse::<usize>().expect("a size")).sum()
}

/// The figures that docs/INTEGRATING.md has for a call: stack at each size, and what it links.
fn told(page: &str, call: &str) -> Vec<usize> {
    let row = page.lines().find_map(|line| line.strip_prefix(&format!("| `{call}` | ")));
    let row = row.unwrap_or_else(|| panic!("docs/INTEGRATING.md has no row for {call}"));
    let cells = row.trim_end_matches(" |").split(" | ");
    cells.map(|cell| cell.replace(',', "").parse().expect("a figure")).collect()
}

/// A figure of the page is right to a tenth, or to 64 bytes.
fn near(told: usize, measured: usize) -> bool {
    told.abs_diff(measured) <= 64.max(measured / 10)
}

#[test]
fn the_room_of_each_call() {
    let page = fs::read_to_string(repository().join("docs/INTEGRATING.md")).expect("the page");
    let program = measuring();
    let stacks = [1, 2].map(|points| SIZES.map(|size| stack(&program, size, points)));
    let empty = linked(&[]);
    println!("| Call | stack at (3, 1) | (32, 31) | (255, 254) | linked alone |");
    println!("|---|---|---|---|---|");
    let mut measured = BTreeMap::new();
    for call in calls() {
        let [one, two] = stacks.each_ref().map(|stacks| stacks.each_ref().map(|of| of[&call]));
        let [small, middle, large] = std::array::from_fn(|size| one[size].max(two[size]));
        let alone = linked(std::slice::from_ref(&call)) - empty;
        println!("| `{call}` | {small} | {middle} | {large} | {alone} |");
        if one != two {
            println!("with one point {one:?}, with two {two:?}");
        }
        measured.insert(call, [small, middle, large, alone]);
    }
    println!("\nThe whole library: {} bytes linked", linked(&calls()) - empty);
    for (call, [small, middle, large, alone]) in measured {
        check_stack(&call, small, middle, large);
        let (told, measured) = (told(&page, &call), [small, middle, large, alone]);
        assert!(
            told.len() == 4 && told.iter().zip(measured).all(|(told, of)| near(*told, of)),
            "docs/INTEGRATING.md has {told:?} for {call}, measured are {measured:?}"
        );
    }
}

/// No call goes deeper than is said, and a small station's does not have the rooms of a large one.
fn check_stack(call: &str, small: usize, middle: usize, large: usize) {
    assert!(small > 0 && middle > 0 && large > 0, "{call} was made at each size");
    assert!(small.max(middle).max(large) < MOST_STACK, "{call} goes deeper than {MOST_STACK}");
    let spared = !OPENING.contains(&call) || small.max(middle) + SPARED <= large;
    assert!(spared, "{call} at (3, 1) or (32, 31) has the rooms of the most posts on its stack");
    let with_sets = SETS.iter().find(|(name, _)| *name == call);
    let most = with_sets.map_or(SMALL, |(_, most)| *most);
    let little = MORE.contains(&call) || small <= most;
    assert!(little, "{call} takes more than {most} bytes of a small station's stack");
}
