//! The street program.

mod common;

use std::io::Write;
use std::process::{Command, Stdio};

use common::program::{answers, refusals};
use reference::random::street_input;
use reference::{Library, LONGEST_LINE, REFERENCE};

const START: &str = "S,3,1,1,2\n";
const RAW: &str = "R,0,1,2,5,5,17,12,18,24\n";

/// What `line` gets after the papers' start, and nothing else.
fn after_start(line: &str) -> Vec<u8> {
    refusals(format!("{START}{line}").as_bytes())[1..].to_vec()
}

#[test]
fn the_papers_example() {
    let input = b"S,3,1,1,2\nR,0,1,2,5,5,17,12,18,24\nD,0,93\nO,0,2,3,1\nG,0\n";
    let output = "line,refusal,value\n1,0,0\n2,0,0\n3,0,0\n4,0,0\n5,0,100\n";
    assert_eq!(REFERENCE.street(input), output.as_bytes());
}

#[test]
fn empty_input_prints_the_header_only() {
    assert_eq!(REFERENCE.street(b""), b"line,refusal,value\n");
}

#[test]
fn before_a_start_every_other_line_gets_1() {
    let overlong = "R".repeat(LONGEST_LINE) + "\n";
    for line in ["\n", "R\n", RAW, "D,0,93\n", "G,0\n", "x", "SS,3,1,1,2\n", " S,3\n", "s,3\n"] {
        assert_eq!(refusals(line.as_bytes()), [1], "{line:?}");
    }
    assert_eq!(refusals(b"S\r\n"), [1]);
    assert_eq!(refusals(overlong.as_bytes()), [1]);
}

const STARTS: &[(&str, u8)] = &[
    ("S", 10),
    ("S\n", 10),
    ("S,3,1,1,2", 10),
    ("S,3,1,1\n", 10),
    ("S,3,1,1,2,\n", 10),
    ("S,3,1,1,02\n", 10),
    ("S,-,1,1,2\n", 10),
    ("S,3,--,1,2\n", 10),
    ("S,3,1,-,2\n", 10),
    ("S,3,1,1,2\r\n", 10),
    ("S,99999999999,1,1,2\n", 10),
    ("S,1,9,9,x\n", 10),
    ("S,1,9,9,0\n", 1),
    ("S,33,1,1,2\n", 1),
    ("S,33,33,34,0\n", 1),
    ("S,255,254,255,1\n", 1),
    ("S,256,1,1,2\n", 1),
    ("S,9999999999,1,1,2\n", 1),
    ("S,4294967299,1,1,2\n", 1),
    ("S,3,0,9,0\n", 2),
    ("S,3,3,9,0\n", 2),
    ("S,3,4294967297,1,2\n", 2),
    ("S,3,1,0,0\n", 3),
    ("S,3,1,4,0\n", 3),
    ("S,3,1,4294967297,2\n", 3),
    ("S,3,1,3,0\n", 4),
    ("S,3,1,3,2147483647\n", 4),
    ("S,3,1,3,4294967298\n", 4),
    ("S,3,1,3,2147483646\n", 0),
    ("S,2,-,2,1\n", 0),
    ("S,32,31,32,1\n", 0),
];

#[test]
fn a_start_gets_10_then_1_to_4() {
    for &(line, refusal) in STARTS {
        assert_eq!(refusals(line.as_bytes()), [refusal], "{line:?}");
    }
    let overlong = "S,".to_string() + &"1".repeat(LONGEST_LINE) + "\n";
    assert_eq!(refusals(overlong.as_bytes()), [10]);
}

#[test]
fn a_refused_start_may_be_repeated_and_a_second_gets_10() {
    let input = b"S,33,1,1,2\nG,0\nS,3,9,1,2\nS\nS,3,-,1,2\nS,3,1,1,2\nS,9\nS,33,1,1,2\nG,0\n";
    assert_eq!(refusals(input), [1, 1, 2, 10, 0, 10, 10, 10, 7]);
}

/// "It now means n divided by 2, rounded down": with n = 2 and 3 that is 1, as before.
#[test]
fn the_dash_means_half() {
    let input = "S,3,-,1,2\n".to_string() + RAW + "D,0,93\nO,0,2,3,1\nG,0\n";
    assert_eq!(answers(input.as_bytes())[4], (0, 100));
    for n in 2..=32 {
        let figure = |t: &str| format!("{n},{t},1,2");
        // A message of t+1, or 2t+1, coefficients is taken, and no other.
        for (letter, second, k) in [("S", "", 1), ("W", ",3", 2)] {
            let start = format!("{letter},{}{second}\n", figure("-"));
            let message = |count: usize| format!("O,0,1{}\n", ",1".repeat(count));
            let half = k * (n / 2) + 1;
            let lines = [half - 1, half, half + 1].map(message).concat();
            assert_eq!(refusals((start + &lines).as_bytes()), [0, 10, 0, 10], "{letter}, n = {n}");
        }
    }
}

/// The form, then 1, come before t is asked.
#[test]
fn a_dash_for_odd_numbers_of_posts() {
    for (start, refusal) in [
        ("S,0,-,0,0\n", 1),
        ("S,1,-,1,1\n", 1),
        ("S,33,-,1,1\n", 1),
        ("S,9999999999,-,1,1\n", 1),
        ("S,02,-,1,1\n", 10),
        ("S,-,-,1,1\n", 10),
        ("W,4,-,5,1,1\n", 3),
        ("W,4,-,4,1,0\n", 4),
    ] {
        assert_eq!(refusals(start.as_bytes()), [refusal], "{start:?}");
    }
}

/// After a start, lines of no right form.
const WRONG_FORM: &[&str] = &[
    "\n",
    "X,0\n",
    "R\n",
    "G\n",
    "G,\n",
    "G,0,0\n",
    "G,00\n",
    "g,0\n",
    "D,96\n",
    "D,96,x\n",
    "O,96,9,1\n",
    "R,96,1,2,5,5,17,12,18\n",
    "R,0,1,2,5,5,17,12,18,24,1\n",
    "R,0,1,2,5,5,17,12,18,024\n",
    "G,0\r\n",
    "GG,0\n",
    "SS\n",
    "S\n",
    "S,3,1,1,2\n",
];

/// Lines of right form with a number out of range.
const OUT_OF_RANGE: &[&str] = &[
    "R,96,1,2,5,5,17,12,18,24\n",
    "R,4294967296,1,2,5,5,17,12,18,24\n",
    "R,0,1,2,5,5,17,12,18,2147483647\n",
    "R,0,4294967297,2,5,5,17,12,18,24\n",
    "D,96,1\n",
    "D,0,2147483647\n",
    "O,96,1,1,1\n",
    "O,0,0,1,1\n",
    "O,0,4,1,1\n",
    "O,0,1,1,2147483647\n",
    "G,96\n",
    "G,9999999999\n",
    "G,4294967296\n",
];

#[test]
fn forms_then_ranges_then_marks() {
    for wrong in WRONG_FORM {
        assert_eq!(after_start(wrong), [10], "{wrong:?}");
    }
    for wide in OUT_OF_RANGE {
        assert_eq!(after_start(wide), [11], "{wide:?}");
    }
    assert_eq!(after_start("D,0,1\nG,0\nG,95\n"), [7, 7, 7]);
    assert_eq!(after_start(&format!("{RAW}{RAW}G,0\nD,0,93\nD,0,93\nG,0\n")), [0, 7, 7, 0, 7, 9]);
}

#[test]
fn the_last_line_without_its_line_feed_gets_10() {
    assert_eq!(after_start("G,0"), [10]);
    assert_eq!(after_start("O,0,2,3,1\nO,0,2,3,1"), [0, 10]);
    assert_eq!(refusals(b"G,0"), [1]);
}

#[test]
fn lines_of_5252_bytes_are_taken_and_longer_ones_refused() {
    let elements = ["2147483646"; 159];
    let row = format!("R,95,{}\n", elements.join(","));
    let longest = format!("T,93,{}\n", [elements; 3].concat().join(","));
    assert_eq!((longest.len(), LONGEST_LINE), (5252, 5252));
    let start = "W,32,31,32,1,2147483646\n";
    assert_eq!(refusals(format!("{start}{longest}{row}").as_bytes()), [0, 0, 7]);
    assert_eq!(refusals(format!("{start}{row}{longest}").as_bytes()), [0, 0, 7]);
    let wider = longest.replace("T,93,", "T,093,");
    assert_eq!(refusals(format!("{start}{wider}").as_bytes()), [0, 10]);
    for length in [LONGEST_LINE + 1, LONGEST_LINE + 2, 100_000] {
        let overlong = "G,0".to_string() + &" ".repeat(length - 4) + "\n";
        assert_eq!(overlong.len(), length);
        assert_eq!(refusals(format!("{start}{overlong}G,0\n").as_bytes()), [0, 10, 7]);
    }
}

/// The values of the lines behind a start, post 1's raw row 0 and its deal.
fn after_deal(lines: &str) -> Vec<(u8, u32)> {
    let second = RAW.replace("R,0", "R,1");
    let input = format!("{START}{RAW}{second}D,0,93\nD,1,94\n{lines}");
    answers(input.as_bytes())[5..].to_vec()
}

#[test]
fn the_record_is_kept_for_one_row() {
    let opened = after_deal("O,0,2,3,1\nG,0\nG,0\nG,1\nG,0\n");
    assert_eq!(opened, [(0, 0), (0, 100), (0, 100), (9, 0), (0, 100)]);
    let other_row = after_deal("O,0,2,3,1\nO,1,3,5,6\nG,0\nG,1\nO,0,1,0,0\nG,1\nG,0\n");
    let expected = [(0, 0), (0, 0), (9, 0), (0, 101), (0, 0), (9, 0), (9, 0)];
    assert_eq!(other_row, expected);
}

#[test]
fn a_second_message_replaces_the_first_and_a_refused_one_changes_nothing() {
    let replaced = after_deal("O,0,2,6,0\nG,0\nO,0,2,3,1\nG,0\nO,0,2,6,0\nG,0\n");
    assert_eq!(replaced, [(0, 0), (9, 0), (0, 0), (0, 100), (0, 0), (9, 0)]);
    let refused = after_deal("O,0,2,3,1\nO,1,4,3,1\nO,1,2,3\nO,0,2,2147483647,0\nG,0\n");
    assert_eq!(refused, [(0, 0), (11, 0), (10, 0), (11, 0), (0, 100)]);
}

#[test]
fn an_own_message_is_kept_but_not_looked_at_and_may_empty_the_record() {
    assert_eq!(after_deal("O,0,1,9,9\nO,0,2,3,1\nG,0\n")[2], (0, 100));
    assert_eq!(after_deal("O,0,2,3,1\nO,1,1,9,9\nG,0\n")[2], (9, 0));
}

#[test]
fn messages_for_an_empty_or_raw_row_count_later() {
    let input = format!("{START}O,0,2,3,1\n{RAW}G,0\nD,0,93\nG,0\n");
    let expected = [(0, 0), (0, 0), (0, 0), (7, 0), (0, 0), (0, 100)];
    assert_eq!(answers(input.as_bytes()), expected);
}

#[test]
fn odd_bytes_are_wrong_bytes() {
    assert_eq!(after_start("\0\n\r\n \nG,0\0\n\u{ff}\n"), [10, 10, 10, 10, 10]);
}

#[test]
fn the_binary_prints_what_the_function_gives() {
    for seed in 0..5 {
        let input = street_input(seed, 50);
        let mut program = Command::new(env!("CARGO_BIN_EXE_street-reference"))
            .stdin(Stdio::piped())
            .stdout(Stdio::piped())
            .spawn()
            .unwrap();
        program.stdin.take().unwrap().write_all(&input).unwrap();
        let output = program.wait_with_output().unwrap();
        assert!(output.status.success());
        assert_eq!(output.stdout, REFERENCE.street(&input));
    }
}
