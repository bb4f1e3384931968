//! The header, the binding, README.md and CHANGES.md have one version.

mod common;

use std::fs;

use common::programs::repository;

const VERSION: &str = env!("CARGO_PKG_VERSION");

fn text(path: &str) -> String {
    fs::read_to_string(repository().join(path)).unwrap_or_else(|error| panic!("{path}: {error}"))
}

#[test]
fn the_header_has_the_bindings_version() {
    let header = text("include/gantsorol.h");
    let part = |name: &str| {
        let line = format!("#define GANTSOROL_VERSION_{name} ");
        let mut found = header.lines().filter_map(|text| text.strip_prefix(&line));
        let part = found.next().unwrap_or_else(|| panic!("the header has no {line}"));
        assert_eq!(found.next(), None);
        part.to_string()
    };
    assert_eq!(["MAJOR", "MINOR", "PATCH"].map(part).join("."), VERSION);
}

#[test]
fn the_readme_and_the_changes_have_it_too() {
    let readme = text("README.md");
    let (_, said) = readme.split_once("\nThis is version ").expect("README.md says the version");
    assert_eq!(said.split(';').next(), Some(VERSION));
    let changes = text("CHANGES.md");
    let newest = changes.lines().find_map(|line| line.strip_prefix("## "));
    assert_eq!(newest, Some(VERSION), "CHANGES.md begins with what this version has");
}
