//! What the examples make of wrong arguments, and who may read the files that they write.

mod common;

use std::fs;
use std::os::unix::fs::PermissionsExt;
use std::path::{Path, PathBuf};
use std::process::Command;

use common::programs::{compiled, repository, C};

fn example(name: &str, as_name: &str) -> PathBuf {
    compiled(as_name, &repository().join(format!("examples/{name}.c")), &C)
}

/// A new empty folder for a test.
fn folder(name: &str) -> PathBuf {
    let folder = Path::new(env!("CARGO_TARGET_TMPDIR")).join(name);
    let _ = fs::remove_dir_all(&folder);
    fs::create_dir_all(&folder).expect("a folder can be made");
    folder
}

/// The program says why on standard error, prints nothing and ends badly, on an input that is right.
#[track_caller]
fn check_refused(program: &Path, arguments: &[&str]) {
    let input = fs::File::open(repository().join("examples/works.txt")).expect("an input");
    let output = Command::new(program).args(arguments).stdin(input).output().expect("it runs");
    assert!(!output.status.success(), "{arguments:?} is taken");
    assert!(output.stdout.is_empty() && !output.stderr.is_empty(), "{arguments:?}");
}

const NO_NUMBERS: [&str; 8] = ["", "abc", "12x", " 5", "+5", "-1", "99999999999", "4294967296"];

#[test]
fn a_word_that_is_no_element_is_refused_before_a_file_is_written() {
    let (program, directory) = (example("word", "given_word"), folder("given_words"));
    let path = directory.to_str().expect("a path in UTF-8");
    for word in NO_NUMBERS.into_iter().chain(["2147483647"]) {
        check_refused(&program, &[path, word]);
    }
    check_refused(&program, &[path]);
    assert_eq!(fs::read_dir(&directory).expect("a folder").count(), 0);
    check_refused(&program, &["/no/such/folder", "5"]);
}

#[test]
fn a_station_of_no_elements_is_refused_before_a_file_is_written() {
    let (program, directory) = (example("station", "given_station"), folder("given_stations"));
    let path = directory.to_str().expect("a path in UTF-8");
    for number in NO_NUMBERS.into_iter().chain(["2147483647"]) {
        check_refused(&program, &[path, number, "1", "1"]);
        check_refused(&program, &[path, "1", "1", number]);
    }
    check_refused(&program, &[path, "1", "1"]);
    assert_eq!(fs::read_dir(&directory).expect("a folder").count(), 0);
}

/// Also where a file stands that others may read.
#[test]
fn only_their_owner_reads_pack_files() {
    let (program, directory) = (example("word", "own_word"), folder("own_words"));
    let stood = directory.join("post-2.txt");
    fs::write(&stood, "old").expect("a file can be written");
    fs::set_permissions(&stood, PermissionsExt::from_mode(0o644)).expect("its mode can be set");
    let status = Command::new(program).arg(&directory).arg("2147483646").status();
    assert!(status.expect("it runs").success());
    for post in 1..=3 {
        let file = fs::metadata(directory.join(format!("post-{post}.txt"))).expect("a file");
        assert_eq!(file.permissions().mode() & 0o777, 0o600, "post {post}");
    }
}

#[test]
fn a_works_without_a_post_is_refused() {
    let program = example("works", "given_works");
    for post in NO_NUMBERS.into_iter().chain(["256", "-18446744073709551615"]) {
        check_refused(&program, &[post]);
    }
    check_refused(&program, &[]);
}
