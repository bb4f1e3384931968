//! docs/PINNED.md has every definition that a table, a law, a theorem about whole runs or an exported contract imports: in backquotes,
//! in the section of its crate. Only names are compared; whether what the page says of one pins it, a reader judges.

mod common;

use std::collections::BTreeSet;
use std::fs;
use std::path::Path;

use common::programs::repository;

/// Files of `specs/` that state what holds: those that begin so, and all of these crates.
const STATING: [&str; 10] = [
    "Claims", "Counted.", "Figures.", "Law", "Meaning.", "Order.", "Places.", "Table", "Ten.",
    "Words.",
];
const THEOREMS: [&str; 6] =
    ["correctness", "packed_law", "performing_law", "runs", "secrecy", "table"];

/// The page's common line: each has its table, which says the same list in figures.
const TABLED: [&str; 4] = ["_tests", "_refusal", "_checks", "_table"];

/// Where a function has the name already, a definition ends in `_of` behind it.
fn tabled(name: &str) -> bool {
    let name = name.strip_suffix("_of").unwrap_or(name);
    TABLED.iter().any(|ending| name.ends_with(ending))
}

/// A definition: its crate and its name.
type Definition = (String, String);

fn texts(folder: &Path, stating: impl Fn(&str) -> bool) -> Vec<String> {
    let Ok(entries) = fs::read_dir(folder) else { return vec![] };
    let files = entries.map(|entry| entry.expect("a folder can be read").path());
    let named = |path: &Path| path.file_name().and_then(|name| name.to_str()).is_some_and(&stating);
    let asked = files.filter(|path| path.is_file() && named(path));
    asked.map(|path| fs::read_to_string(path).expect("a source is text")).collect()
}

/// Every file whose imports are asked for.
fn asked() -> Vec<String> {
    let crates = repository().join("crates");
    let mut all = texts(&crates.join("gantsorol/src"), |_| true);
    for entry in fs::read_dir(&crates).expect("the repository has crates") {
        let path = entry.expect("a folder can be read").path();
        let whole = THEOREMS.iter().any(|name| path.ends_with(name));
        let states = |file: &str| STATING.iter().any(|name| file.starts_with(name));
        all.extend(texts(&path.join("specs"), |file| whole || states(file)));
    }
    all
}

/// What a file imports: `use Rattle.CRATE.specs.FILE.{a, b as c}`; or `use Rattle.CRATE.specs.FILE as F`, and then `F.a`. Types that
/// the code declares are left out, and so is what the toolchain's libraries have.
fn imported(text: &str) -> BTreeSet<Definition> {
    let imports = text.lines().filter_map(|line| Some(line.split_once("use Rattle.")?.1));
    let mut found = BTreeSet::new();
    for import in imports.filter(|import| !import.contains(".specs.declared.")) {
        let home = import.split('.').next().unwrap_or_default();
        if !repository().join("crates").join(home).is_dir() {
            continue;
        }
        assert_eq!(import.contains(".{"), import.contains('}'), "an import is one line: {import}");
        let names: Vec<&str> = match import.split_once(".{") {
            Some((_, names)) => names
                .split('}')
                .next()
                .into_iter()
                .flat_map(|names| names.split(','))
                .filter_map(|name| name.split_whitespace().next())
                .collect(),
            None => {
                let (_, short) = import.split_once(" as ").expect("an import has a short name");
                text.split(|c: char| c.is_whitespace() || "(){};,".contains(c))
                    .filter_map(|word| word.strip_prefix(short.trim())?.strip_prefix('.'))
                    .collect()
            }
        };
        found.extend(names.into_iter().map(|name| (home.to_string(), name.to_string())));
    }
    found
}

/// What the page lacks: a section's heading names crates, and what stands in it in backquotes has its row there.
fn lacking(page: &str, definitions: &BTreeSet<Definition>) -> Vec<String> {
    let rows: BTreeSet<(&str, &str)> = page
        .split("\n## ")
        .skip(1)
        .filter_map(|section| section.split_once('\n'))
        .flat_map(|(heading, body)| {
            let crates = heading.split([',', ':', ' ']).filter(|word| !word.is_empty());
            crates.flat_map(|name| body.split('`').skip(1).step_by(2).map(move |word| (name, word)))
        })
        .collect();
    let missing = definitions
        .iter()
        .filter(|(home, name)| !tabled(name) && !rows.contains(&(home.as_str(), name.as_str())));
    missing.map(|(home, name)| format!("{home}: {name}")).collect()
}

fn page() -> String {
    fs::read_to_string(repository().join("docs/PINNED.md")).expect("the page is there")
}

fn definitions() -> BTreeSet<Definition> {
    asked().iter().flat_map(|text| imported(text)).collect()
}

#[test]
fn every_definition_cited_has_its_row() {
    assert_eq!(lacking(&page(), &definitions()), Vec::<String>::new());
}

/// The test sees each row that is left out, a row in another crate's section, and a new import.
#[test]
fn a_row_left_out_is_seen() {
    let (page, definitions) = (page(), definitions());
    assert!(definitions.len() > 400, "only {} definitions were found", definitions.len());
    for (home, name) in definitions.iter().filter(|(_, name)| !tabled(name)) {
        let found = lacking(&page.replace(&format!("`{name}`"), name), &definitions);
        assert!(found.contains(&format!("{home}: {name}")), "{home}: {name} is not asked for");
    }
    let moved = page.replace("\n## poly\n", "\n## lists\n");
    assert!(lacking(&moved, &definitions).contains(&"poly: value".into()));
    let further = imported("use Rattle.poly.specs.Counting.{All, further as more}\nuse Rattle.forms.specs.Lines as Line\n(Line.never_said x)");
    assert_eq!(lacking(&page, &further), ["forms: never_said", "poly: further"]);
    assert_eq!(imported("use Rattle.std.specs.Prelude.{◌≡◌}"), BTreeSet::new());
}
