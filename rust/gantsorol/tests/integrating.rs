//! docs/INTEGRATING.md: every block of code is a part of an example that the tests compile and run, and every command is run
//! here, one after the other in an empty folder, and prints what stands behind it.

mod common;

use std::env;
use std::fs;
use std::os::unix::fs::{symlink, PermissionsExt};
use std::path::{Path, PathBuf};
use std::process::Command;

use common::programs::{ended, repository};

/// What the tests compile and run: the programs, and what they include.
const EXAMPLES: [(&str, &[&str]); 2] = [
    (
        "c",
        &[
            "examples/dealers.c",
            "examples/given.h",
            "examples/load.h",
            "examples/plan.h",
            "examples/post.c",
            "examples/station.c",
            "examples/works.h",
        ],
    ),
    ("rust", &["rust/gantsorol/examples/post.rs"]),
];

fn text(path: &str) -> String {
    fs::read_to_string(repository().join(path)).unwrap_or_else(|error| panic!("{path}: {error}"))
}

/// The page's blocks in their order: in which language, and their lines.
fn blocks() -> Vec<(String, String)> {
    let page = text("docs/INTEGRATING.md");
    let mut parts = page.split("```");
    parts.next();
    let mut blocks = vec![];
    while let (Some(block), Some(_)) = (parts.next(), parts.next()) {
        let (language, lines) = block.split_once('\n').expect("a block has lines");
        blocks.push((language.to_string(), lines.to_string()));
    }
    assert!(blocks.len() > 20, "only {} blocks were found", blocks.len());
    blocks
}

#[test]
fn every_block_is_a_part_of_an_example() {
    for (language, lines) in blocks() {
        let Some((_, paths)) = EXAMPLES.iter().find(|(of, _)| *of == language) else {
            assert!(language == "sh" || language == "text", "what is {language}?");
            continue;
        };
        let found = paths.iter().any(|path| text(path).contains(&format!("\n{lines}")));
        assert!(found, "no example in {language} has\n{lines}");
    }
}

/// A folder with nothing but what the page uses of a clone, and pkg-config where the machine has none.
fn empty_folder() -> PathBuf {
    let folder = Path::new(env!("CARGO_TARGET_TMPDIR")).join("integrating");
    let _ = fs::remove_dir_all(&folder);
    fs::create_dir_all(folder.join("bin")).expect("a folder can be made");
    let clone = folder.join("gantsorol");
    fs::create_dir_all(&clone).expect("a folder can be made");
    for part in ["install", "include", "examples"] {
        symlink(repository().join(part), clone.join(part)).expect("a link can be made");
    }
    if Command::new("pkg-config").arg("--version").output().is_err() {
        let own = folder.join("bin/pkg-config");
        let flags = "-I$PKG_CONFIG_PATH/../../include -L$PKG_CONFIG_PATH/.. -lgantsorol";
        fs::write(&own, format!("#!/bin/sh\necho {flags}\n")).expect("a file can be written");
        fs::set_permissions(own, PermissionsExt::from_mode(0o755)).expect("it may be run");
    }
    folder
}

/// Runs all commands in one shell, and says before each block which one it is.
#[test]
fn every_command_prints_what_is_said() {
    let (mut script, mut expected) = (String::from("set -eu\n"), String::new());
    for (at, (language, lines)) in blocks().into_iter().enumerate() {
        match language.as_str() {
            "sh" => {
                script += &format!("echo 'block {at}'\n{lines}");
                expected += &format!("block {at}\n");
            }
            "text" => expected += &lines,
            _ => (),
        }
    }
    let folder = empty_folder();
    let path = env::join_paths(
        [folder.join("bin")]
            .into_iter()
            .chain(env::split_paths(&env::var_os("PATH").expect("a path"))),
    );
    // Posts that wait for each other would wait for ever.
    let mut shell = Command::new("timeout");
    shell
        .args(["120", "sh", "-c"])
        .arg(script)
        .current_dir(&folder)
        .env("PATH", path.expect("a path"));
    shell.env("GANTSOROL_LIB", env!("GANTSOROL_ARCHIVE")).env_remove("DESTDIR");
    let printed = String::from_utf8(ended(&mut shell).stdout).expect("text");
    let said = |line: &&str| !line.starts_with("install: ");
    assert_eq!(
        printed.lines().filter(said).collect::<Vec<_>>(),
        expected.lines().collect::<Vec<_>>()
    );
}

/// A refusal of the header has its row among the errors, by its name and its number.
#[test]
fn every_refusal_has_its_row() {
    let (header, page) = (text("include/gantsorol.h"), text("docs/INTEGRATING.md"));
    let (_, list) = header.split_once("enum gantsorol_refusal {").expect("the header has the enum");
    let (list, _) = list.split_once('}').expect("the enum has an end");
    for entry in list.split(',') {
        let (name, number) = entry.trim().split_once(" = ").expect("a name has a number");
        let row = format!("\n| `{name}` ({number}) | ");
        assert!(page.contains(&row), "docs/INTEGRATING.md does not have {row}");
    }
}
