//! The README's picture of the crates holds: each crate of `crates.txt` is named once, and stands only on crates behind it, to
//! its right in its line or in lines below.

mod common;

use std::collections::BTreeMap;
use std::fs;

use common::programs::repository;

fn text(path: &str) -> String {
    fs::read_to_string(repository().join(path)).unwrap_or_else(|error| panic!("{path}: {error}"))
}

/// A crate's name, behind which `staticlib` may stand.
fn crate_name(named: &str) -> &str {
    named.split_whitespace().next().expect("a crate has a name")
}

/// Each crate with what it stands on, of this repository.
fn listed() -> BTreeMap<String, Vec<String>> {
    let list = text("crates.txt");
    let lines: Vec<(&str, &str)> = list
        .lines()
        .filter(|line| !line.starts_with('#'))
        .filter_map(|line| line.split_once(':'))
        .map(|(named, names)| (crate_name(named), names))
        .collect();
    let ours = |name: &&str| lines.iter().any(|(listed, _)| listed == name);
    let below = |names: &str| names.split_whitespace().filter(ours).map(str::to_string).collect();
    lines.iter().map(|&(name, names)| (name.to_string(), below(names))).collect()
}

/// The names of the picture in the order in which it is read: a line has a group or none, then names parted by commas, then
/// what they are, with two blanks or more between.
fn pictured(readme: &str) -> Vec<String> {
    let (_, section) = readme.split_once("\n## The crates\n").expect("README.md has the section");
    let section = section.split("\n## ").next().unwrap_or_default();
    let mut names = vec![];
    for line in section.lines().filter_map(|line| line.strip_prefix("    ")) {
        let grouped = usize::from(!line.starts_with(' '));
        let cells: Vec<&str> =
            line.split("  ").map(str::trim).filter(|cell| !cell.is_empty()).collect();
        assert_eq!(cells.len(), grouped + 2, "README.md: names and what they are: {line}");
        names.extend(cells[grouped].split(", ").map(str::to_string));
    }
    names
}

/// What is wrong with a picture.
fn faults(names: &[String], listed: &BTreeMap<String, Vec<String>>) -> Vec<String> {
    let place = |name: &String| names.iter().position(|named| named == name);
    let mut faults = vec![];
    for (index, name) in names.iter().enumerate() {
        if place(name) != Some(index) {
            faults.push(format!("{name} is named twice"));
        }
        if !listed.contains_key(name) {
            faults.push(format!("{name} is not in crates.txt"));
        }
    }
    for (name, below) in listed {
        if place(name).is_none() {
            faults.push(format!("{name} is not in the picture"));
        }
        let above = below.iter().filter(|other| place(other) < place(name));
        faults.extend(above.map(|other| format!("{name} stands on {other}, which is above it")));
    }
    faults
}

#[test]
fn the_readme_shows_what_each_crate_stands_on() {
    assert_eq!(faults(&pictured(&text("README.md")), &listed()), Vec::<String>::new());
}

/// The test sees a crate out of place, one left out, one named twice and one that is none.
#[test]
fn a_wrong_picture_is_seen() {
    let (right, listed) = (pictured(&text("README.md")), listed());
    let place = |name: &str| right.iter().position(|named| named == name).expect("it is there");
    let mut wrong = right.clone();
    wrong.swap(place("field"), place("refusal"));
    assert!(faults(&wrong, &listed).contains(&"refusal stands on field, which is above it".into()));
    let mut wrong = right.clone();
    wrong[place("session")] = "lists".into();
    let found = faults(&wrong, &listed);
    assert!(found.contains(&"session is not in the picture".into()));
    assert!(found.contains(&"lists is named twice".into()));
    let mut wrong = right;
    wrong.push("nothing".into());
    assert_eq!(faults(&wrong, &listed), ["nothing is not in crates.txt"]);
}

/// Names and layers of `crates.txt` from its last line to its first: a layer's name as `# name`, behind its crates there.
fn from_above() -> Vec<String> {
    let list = text("crates.txt");
    let mut layers: Vec<Vec<String>> = vec![];
    for line in list.lines().skip(2) {
        match line.split_once(':') {
            None => layers.push(vec![line.to_string()]),
            Some((named, _)) => {
                let layer = layers.last_mut().expect("a layer's name comes first");
                layer.insert(1, crate_name(named).to_string())
            }
        }
    }
    layers.into_iter().rev().flatten().collect()
}

/// `crates.txt` is the same list from below, with the same layers.
#[test]
fn crates_txt_has_the_layers_of_the_readme() {
    let readme = text("README.md");
    let (_, section) = readme.split_once("\n## The crates\n").expect("README.md has the section");
    let section = section.split("\n## ").next().unwrap_or_default();
    let mut pictured = vec![];
    for line in section.lines().filter_map(|line| line.strip_prefix("    ")) {
        let cells = line.split("  ").map(str::trim).filter(|cell| !cell.is_empty());
        let mut cells = cells.peekable();
        if !line.starts_with(' ') {
            pictured.extend(cells.next().map(|layer| format!("# {layer}")));
        }
        pictured.extend(
            cells.next().into_iter().flat_map(|names| names.split(", ")).map(str::to_string),
        );
    }
    assert_eq!(from_above(), pictured);
}
