//! The bytes that the header's opening and docs/INTEGRATING.md tell are those of the structs and lists.

mod common;

use std::fs;
use std::mem::size_of;

use common::programs::repository;
use gantsorol::*;

const SIZES: [[usize; 2]; 3] = [[3, 1], [32, 15], [255, 127]];

/// What each line of the table says, in bytes.
type Bytes = (&'static str, fn(usize, usize, usize) -> usize);

const BYTES: [Bytes; 8] = [
    ("session", |_, _, _| size_of::<Session>()),
    ("answer", |_, _, _| size_of::<Answer>()),
    ("rows", |n, t, points| 4 * rows_len(n, t, points)),
    ("record", |n, t, points| 4 * record_len(n, t, points)),
    ("draw of a row", |n, t, points| 4 * row_draw_len(n, t, points)),
    ("draw of a triple", |n, t, points| 4 * triple_draw_len(n, t, points)),
    ("longest broadcast line", masks_line_len),
    ("longest line of a pack file", triple_line_len),
];

/// A number with commas between thousands.
fn grouped(number: usize) -> String {
    match number {
        0..=999 => number.to_string(),
        _ => format!("{},{:03}", grouped(number / 1000), number % 1000),
    }
}

/// The table's lines in a text, without the signs around its cells.
fn lines(path: &str) -> Vec<String> {
    let text =
        fs::read_to_string(repository().join(path)).unwrap_or_else(|e| panic!("{path}: {e}"));
    let plain =
        |line: &str| line.replace(['|', '*'], " ").split_whitespace().collect::<Vec<_>>().join(" ");
    text.lines().map(plain).collect()
}

#[test]
fn the_tables_have_the_bytes_of_structs_and_lists() {
    for path in ["include/gantsorol.h", "docs/INTEGRATING.md"] {
        let lines = lines(path);
        let head = SIZES.map(|[n, t]| format!("({n}, {t})")).join(" ");
        for (points, title) in [(1, "one point"), (2, "two points")] {
            // The table with this title: as many lines as there are names, and the line below a head.
            let title = format!("{title} {head}");
            let at = lines.iter().position(|line| *line == title);
            let at = at.unwrap_or_else(|| panic!("{path} does not have: {title}"));
            let table = &lines[at + 1..][..BYTES.len() + 1];
            for (name, bytes) in BYTES {
                let cells = SIZES.map(|[n, t]| grouped(bytes(n, t, points)));
                let expected = format!("{name} {}", cells.join(" "));
                assert!(table.contains(&expected), "{path} does not have: {expected}");
            }
        }
    }
}
