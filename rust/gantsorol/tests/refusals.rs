//! Refusals have the same numbers, names and words in the header and in the binding, and the words fit what the calls refuse.

mod common;

use std::fs;
use std::path::Path;
use std::process::Command;

use common::programs::{compiled, ended, repository, C, CPP};
use gantsorol::{
    draw_place, write_pack, Refusal, DEALERS, DEAL_LINE_LEN, MAX_POINTS, MAX_POSTS, MAX_TERMS, ROWS,
};

/// The names of the header's enum, by number, without their prefix.
fn names() -> Vec<String> {
    let header = fs::read_to_string(repository().join("include/gantsorol.h")).expect("the header");
    let (_, list) = header.split_once("enum gantsorol_refusal {").expect("the header has the enum");
    let (list, _) = list.split_once('}').expect("the enum has an end");
    let entry = |(number, entry): (usize, &str)| {
        let (name, value) = entry.trim().split_once(" = ").expect("a name has a number");
        assert_eq!(value, number.to_string(), "the numbers follow each other");
        name.strip_prefix("GANTSOROL_").expect("names have a prefix").to_string()
    };
    list.split(',').enumerate().map(entry).collect()
}

/// `TooFewAccepted` as `TOO_FEW_ACCEPTED`.
fn upper(name: &str) -> String {
    let mut spelt = String::new();
    for c in name.chars() {
        if c.is_uppercase() && !spelt.is_empty() {
            spelt.push('_');
        }
        spelt.push(c.to_ascii_uppercase());
    }
    spelt
}

#[test]
fn the_header_and_the_binding_have_the_same_names() {
    let names = names();
    assert_eq!(names[0], "OK");
    assert_eq!(Refusal::from_number(0), None);
    for number in 1..=u8::MAX {
        let refusal = Refusal::from_number(number).expect("only 0 is none");
        assert_eq!(refusal.number(), number);
        match names.get(usize::from(number)) {
            Some(name) => assert_eq!(upper(&format!("{refusal:?}")), *name),
            None => assert_eq!(refusal, Refusal::Unknown(number)),
        }
    }
}

/// The header's words, by number, from a program in C or C++.
fn words(program: &str, options: &[&str]) -> Vec<String> {
    let source = Path::new(env!("CARGO_TARGET_TMPDIR")).join("refusal_words.c");
    let code = "#include <stdio.h>\n#include \"gantsorol.h\"\nint main(void) {\n\
                for (int i = 0; i < 256; i++) puts(gantsorol_refusal_text((uint8_t)i));\nreturn 0;\n}\n";
    fs::write(&source, code).expect("a file can be written");
    let printed = ended(&mut Command::new(compiled(program, &source, options))).stdout;
    String::from_utf8(printed).expect("words").lines().map(str::to_string).collect()
}

#[test]
fn the_header_and_the_binding_have_the_same_words() {
    let known = names().len();
    let words_in_c = words("refusal_words_c", &C);
    assert_eq!(words("refusal_words_cpp", &CPP), words_in_c);
    assert_eq!(words_in_c[0], "no refusal");
    for (number, words) in words_in_c.iter().enumerate().skip(1) {
        let refusal = Refusal::from_number(number as u8).expect("only 0 is none");
        match number < known {
            true => assert_eq!(refusal.to_string(), format!("refusal {number}: {words}")),
            false => assert_eq!(words, "unknown to this header"),
        }
    }
}

/// Bounds stand in the words as figures.
#[test]
fn the_words_have_the_librarys_bounds() {
    let say = |refusal: Refusal, figure: usize| {
        let words = refusal.to_string();
        assert!(
            words.split([' ', ',']).any(|word| word == figure.to_string()),
            "{words}: {figure}"
        );
    };
    say(Refusal::BadPostCount, MAX_POSTS);
    say(Refusal::BadCheckPoint, MAX_POINTS);
    say(Refusal::NoSuchRow, ROWS - 1);
    say(Refusal::NoSuchRow, ROWS - 3);
    say(Refusal::BadTermCount, MAX_TERMS);
    say(Refusal::MalformedLine, DEAL_LINE_LEN);
    say(Refusal::BadDealer, DEALERS);
    say(Refusal::BadDealer, DEAL_LINE_LEN);
}

/// What refuses a pack file is said in its words.
#[test]
fn a_refused_pack_file_is_told_what_is_wrong() {
    let refused = |kinds: &[(usize, u8)], room: usize| {
        let mut set = [0; ROWS];
        kinds.iter().for_each(|&(row, kind)| set[row] = kind);
        let draws = vec![0; draw_place(3, 1, 1, &set, ROWS)];
        let written = write_pack(3, 1, 1, 1, &[2, 3, 5], &set, &draws, &mut vec![0; room]);
        written.accepted().expect_err("it is refused").to_string()
    };
    assert!(refused(&[(0, 2)], 999).contains("a kind of a pack file is unknown"));
    assert!(refused(&[(0, 1)], 9).contains("a line or a file is shorter"));
    assert!(refused(&[(0, 3), (1, 1)], 999).contains("inside a triple of a pack file"));
    assert!(refused(&[(94, 3)], 999).contains("a triple's first row above 93"));
}
