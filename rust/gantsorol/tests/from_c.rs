//! The library from C and C++ with the header, the examples, and what the README shows of them.

mod common;

use std::fs;
use std::mem::{offset_of, size_of};
use std::path::Path;
use std::process::Command;

use common::programs::{compiled, ended, repository, C, CPP};
use gantsorol::{Answer, Line, Number, Session, Term, Written};

mod in_rust {
    include!("../examples/sharing.rs");

    #[test]
    fn the_example() {
        assert_eq!(main(), Ok(()));
    }
}

mod a_relation_in_rust {
    include!("../examples/relation.rs");

    #[test]
    fn the_example() {
        assert_eq!(main(), Ok(()));
    }
}

fn text(path: &str) -> String {
    fs::read_to_string(repository().join(path)).unwrap_or_else(|error| panic!("{path}: {error}"))
}

/// What a program prints, compiled with the header and the archive.
fn run(program: &str, source: &Path, options: &[&str]) -> String {
    let ran = ended(&mut Command::new(compiled(program, source, options)));
    String::from_utf8(ran.stdout).expect("the program prints text")
}

/// An example prints what stands in the file beside it, compiled as C and as C++.
#[track_caller]
fn check_example(name: &str) {
    let source = repository().join(format!("examples/{name}.c"));
    let printed = text(&format!("examples/{name}.out"));
    assert_eq!(run(&format!("{name}_c"), &source, &C), printed);
    assert_eq!(run(&format!("{name}_cpp"), &source, &CPP), printed);
}

#[test]
fn the_example_in_c() {
    check_example("sharing");
}

/// The first collect is alone with its post; the second has heard the others.
#[test]
fn a_product_in_c() {
    check_example("product");
}

/// The fee is rides x rate for one firm, and not for the other, which says so of 43.
#[test]
fn a_relation_in_c() {
    check_example("relation");
}

/// Eight busy dealers are served in turn; a line that is no deal is refused and its place free.
#[test]
fn dealers_in_c() {
    check_example("dealers");
}

/// Two draws behind two secrets show the stolen posts one record.
#[test]
fn other_draws_in_c() {
    check_example("other_draw");
}

/// The README shows parts of the examples that the tests compile and run: lines of the file, one after the other.
#[test]
fn the_readme_shows_parts_of_the_examples() {
    let readme = text("README.md");
    for (language, path) in
        [("c", "examples/sharing.c"), ("rust", "rust/gantsorol/examples/sharing.rs")]
    {
        let (example, fence) = (format!("\n{}", text(path)), format!("```{language}\n"));
        assert!(readme.contains(&fence), "README.md shows nothing of {path}");
        for part in readme.split(&fence).skip(1) {
            let (shown, _) = part.split_once("```\n").expect("what is shown has an end");
            assert!(example.contains(&format!("\n{shown}")), "{path} does not have\n{shown}");
        }
    }
}

/// The README's tables have each line of the stations' inputs, and beside it what the street program prints for it: its
/// answer, and behind that of an `X` its `M` line.
#[test]
fn the_readme_shows_the_stations() {
    let readme = text("README.md");
    for station in ["station", "charge"] {
        let (input, printed) =
            (text(&format!("examples/{station}.txt")), text(&format!("examples/{station}.out")));
        let printed = printed.strip_prefix("line,refusal,value\n").expect("a header");
        let mut answers: Vec<String> = vec![];
        for line in printed.lines() {
            match answers.last_mut() {
                Some(answer) if line.starts_with('M') => *answer += &format!("`, then `{line}"),
                _ => answers.push(line.to_string()),
            }
        }
        assert_eq!(input.lines().count(), answers.len());
        for (line, answer) in input.lines().zip(answers) {
            let row = format!("| `{line}` | `{answer}` |");
            assert!(readme.contains(&row), "README.md does not have {row}");
        }
    }
}

/// One line for a struct's size and for each field's place, as `calls.c` prints them.
macro_rules! layout {
    ($printed:ident, $($of:ty, $name:literal: $($field:ident)+;)+) => {$(
        $printed += &format!("gantsorol_{} has {}\n", $name, size_of::<$of>());
        $(
            let place = offset_of!($of, $field);
            $printed += &format!("gantsorol_{}.{} at {place}\n", $name, stringify!($field));
        )+
    )+};
}

#[test]
fn every_call_from_c() {
    let mut expected = String::new();
    layout!(expected,
        Session, "session": n t post points first second marks factor_a factor_b y_a y_b barred;
        Answer, "answer": refusal value session;
        Term, "term": coefficient row second first;
        Number, "number": refusal value;
        Written, "written": refusal len;
        Line, "line": refusal letter row post;
    );
    expected += include_str!("calls/calls.expected");
    let source = Path::new(env!("CARGO_MANIFEST_DIR")).join("tests/calls/calls.c");
    assert_eq!(run("calls", &source, &C), expected);
}
