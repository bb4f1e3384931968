//! No line of a page is longer than 160 characters, but in a block of code or where it is one link, and every link within the
//! repository leads to a file or a folder that is there.

mod common;

use std::fs;
use std::path::{Path, PathBuf};

use common::programs::repository;

const LONGEST: usize = 160;

/// The pages in a folder and below it, without what is hidden or made (`.git`, `out`, `target`).
fn pages(folder: &Path) -> Vec<PathBuf> {
    let mut found = vec![];
    for entry in fs::read_dir(folder).expect("a folder can be read") {
        let path = entry.expect("a folder can be read").path();
        let name = path.file_name().and_then(|name| name.to_str()).unwrap_or_default();
        if path.is_dir() && !name.starts_with('.') && !["out", "target"].contains(&name) {
            found.extend(pages(&path));
        } else if name.ends_with(".md") {
            found.push(path);
        }
    }
    found
}

/// Where the links of a line lead, but those to other places of the network or of the page itself.
fn links(line: &str) -> impl Iterator<Item = &str> {
    let ends = line.split("](").skip(1).filter_map(|rest| rest.split([')', '#']).next());
    ends.filter(|end| !end.is_empty() && !end.contains("://"))
}

/// What is wrong with a page in this folder.
fn faults(folder: &Path, page: &str) -> Vec<String> {
    let (mut faults, mut code) = (vec![], false);
    for (line, number) in page.lines().zip(1..) {
        if line.starts_with("```") {
            code = !code;
        } else if !code {
            let length = line.chars().count();
            if length > LONGEST && line.split_whitespace().count() > 1 {
                faults.push(format!("line {number} has {length} characters"));
            }
            let dead = links(line).filter(|link| !folder.join(link).exists());
            let told = |link| format!("line {number} links to {link}, which is not there");
            faults.extend(dead.map(told));
        }
    }
    faults
}

#[test]
fn every_page_has_short_lines_and_links_that_lead_somewhere() {
    let mut found = vec![];
    let all = pages(&repository());
    assert!(all.len() > 20, "only {} pages were found", all.len());
    for path in all {
        let page = fs::read_to_string(&path).expect("a page is text");
        let folder = path.parent().expect("a page has a folder");
        found.extend(faults(folder, &page).iter().map(|of| format!("{}: {of}", path.display())));
    }
    assert_eq!(found, Vec::<String>::new());
}

/// The test sees a long line and a link to nothing, and leaves code and what is one long link alone.
#[test]
fn a_wrong_page_is_seen() {
    let (long, url) = ("a ".repeat(LONGEST), format!("http://{}", "a".repeat(LONGEST)));
    let page = format!("{long}\n[x](nowhere.md#y), [z](README.md)\n```c\n{long}\n```\n{url}\n");
    let wrong = ["line 1 has 320 characters", "line 2 links to nowhere.md, which is not there"];
    assert_eq!(faults(&repository(), &page), wrong);
}
