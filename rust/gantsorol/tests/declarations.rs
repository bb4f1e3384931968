//! The header and the binding declare what the library exports: names, parameters, results and
//! structs are those of the Rattle sources, and the archive has these functions and no other.

mod common;

use std::collections::{BTreeMap, BTreeSet};
use std::fs;
use std::path::Path;

use common::programs::{exports, repository};
use gantsorol::{
    DEALERS, DEALERS_LEN, DEAL_LINE_LEN, LONGEST_LINE, MAX_POINTS, MAX_POSTS, MAX_TERMS, MODULUS,
    MOST_STACK, NO_ROW, ROWS, SETS_LEN, SET_LEN,
};

/// A file's text without line comments, block comments, attributes and preprocessor lines.
fn code(path: &str) -> String {
    let path = repository().join(path);
    let text = fs::read_to_string(&path).unwrap_or_else(|e| panic!("{}: {e}", path.display()));
    let mut parts = text.split("/*");
    let mut kept = parts.next().unwrap_or_default().to_string();
    for part in parts {
        let (_comment, after) = part.split_once("*/").expect("a comment has an end");
        kept += after;
    }
    let lines = kept.lines().map(|line| line.split("//").next().unwrap_or_default());
    lines.filter(|line| !line.starts_with('#')).collect::<Vec<_>>().join("\n")
}

/// The words and signs of a piece of code, a blank between any two.
fn squeezed(code: &str) -> String {
    let mut spaced = String::new();
    for c in code.chars() {
        let word = c.is_alphanumeric() || c == '_';
        if word {
            spaced.push(c);
        } else {
            spaced.extend([' ', c, ' ']);
        }
    }
    spaced.split_whitespace().collect::<Vec<_>>().join(" ").replace(" , )", " )")
}

/// A name with its type as the Rattle source has it.
type Typed = (String, String);

/// What the exports call otherwise than the header and the binding: there a record has one name in every call, and so has a list of
/// check points, beside their number.
const CALLED: [(&str, &str); 2] = [("blocks", "record"), ("ws", "check_points")];

fn called(name: &str) -> String {
    let found = CALLED.iter().find(|(exported, _)| *exported == name);
    found.map_or(name, |(_, called)| called).to_string()
}

/// `name: type` parted by commas, without `pub`.
fn typed(list: &str) -> Vec<Typed> {
    let entries = list.split(',').map(str::trim).filter(|entry| !entry.is_empty());
    let entry = |entry: &str| {
        let (name, of) = entry.split_once(':').expect("a name has a type");
        let name = name.trim().trim_start_matches("pub ").to_string();
        (name, of.trim().replace("'a ", ""))
    };
    entries.map(entry).collect()
}

/// An exported function.
struct Function {
    name: String,
    parameters: Vec<Typed>,
    result: String,
}

/// Every exported function of the Rattle crate.
fn exported() -> Vec<Function> {
    let folder = "crates/gantsorol/src";
    let files = fs::read_dir(repository().join(folder)).expect("the exports have sources");
    let names = files.map(|file| file.expect("a file").file_name().into_string().expect("a name"));
    let sources: String = names.map(|name| code(&format!("{folder}/{name}"))).collect();
    let starts = sources.split("pub extern \"C\" fn ").skip(1);
    let function = |start: &str| {
        let (head, rest) = start.split_once('(').expect("a function has parameters");
        let (parameters, rest) = rest.split_once(')').expect("parameters have an end");
        let result = rest.trim_start().strip_prefix("->").expect("a function has a result");
        Function {
            name: head.split('<').next().unwrap_or_default().to_string(),
            parameters: typed(parameters)
                .into_iter()
                .map(|(name, of)| (called(&name), of))
                .collect(),
            result: result.split_whitespace().next().unwrap_or_default().to_string(),
        }
    };
    let functions: Vec<Function> = starts.map(function).collect();
    assert!(functions.len() >= 14, "only {} functions were found", functions.len());
    functions
}

fn c_type(of: &str) -> String {
    match of {
        "usize" => "size_t".into(),
        "u32" => "uint32_t".into(),
        "u8" => "uint8_t".into(),
        name => format!("gantsorol_{}", name.to_lowercase()),
    }
}

/// A declaration: each parameter by `list` where it is a slice, else by `plain`.
fn declared(
    parameters: &[Typed],
    list: impl Fn(&str, &str, bool) -> String,
    plain: impl Fn(&str, &str) -> String,
) -> String {
    let parameter = |(name, of): &Typed| {
        let (of, written) = match of.strip_prefix("&mut ") {
            Some(of) => (of, true),
            None => (of.trim_start_matches('&'), false),
        };
        match of.strip_prefix('[').and_then(|of| of.strip_suffix(']')) {
            Some(of) => list(name, of, written),
            None => plain(name, of),
        }
    };
    parameters.iter().map(parameter).collect::<Vec<_>>().join(", ")
}

fn c_declaration(function: &Function) -> String {
    let list = |name: &str, of: &str, written: bool| {
        let constant = if written { "" } else { "const " };
        format!("{constant}{} *{name}, size_t {name}_len", c_type(of))
    };
    let plain = |name: &str, of: &str| format!("{} {name}", c_type(of));
    let parameters = declared(&function.parameters, list, plain);
    squeezed(&format!("{} {}({parameters})", c_type(&function.result), function.name))
}

fn rust_declaration(function: &Function) -> String {
    let list = |name: &str, of: &str, written: bool| {
        let kind = if written { "mut" } else { "const" };
        format!("{name}: *{kind} {of}, {name}_len: usize")
    };
    let plain = |name: &str, of: &str| format!("{name}: {of}");
    let parameters = declared(&function.parameters, list, plain);
    squeezed(&format!("pub fn {}({parameters}) -> {}", function.name, function.result))
}

/// The header without its structs, and these.
fn header() -> (BTreeSet<String>, BTreeSet<String>) {
    let code = code("include/gantsorol.h");
    let (_, code) = code.split_once("extern \"C\" {").expect("the header is for C++ too");
    let (code, _) = code.rsplit_once('}').expect("the header is for C++ too");
    let (mut functions, mut structs) = (BTreeSet::new(), BTreeSet::new());
    let mut rest = code;
    while let Some((before, after)) = rest.split_once("typedef") {
        let (fields, after) = after.split_once('}').expect("a struct has an end");
        let (name, after) = after.split_once(';').expect("a typedef has an end");
        let text = format!("{fields}}}{name}").replace("GANTSOROL_SETS_LEN", "768");
        structs.insert(squeezed(&text.replace("GANTSOROL_ROWS", "96")));
        assert!(before.trim().is_empty(), "the structs come first");
        rest = after;
    }
    for declaration in rest.split(';').map(squeezed).filter(|text| !text.is_empty()) {
        assert!(functions.insert(declaration), "a function is declared twice");
    }
    (functions, structs)
}

#[test]
fn the_header_declares_the_exported_functions() {
    let expected: BTreeSet<String> = exported().iter().map(c_declaration).collect();
    assert_eq!(header().0, expected);
}

#[test]
fn the_binding_declares_the_exported_functions() {
    let code = code("rust/gantsorol/src/sys.rs");
    let (_, code) = code.split_once("extern \"C\" {").expect("the functions are extern");
    let (code, _) = code.rsplit_once('}').expect("the block has an end");
    let declared = code.split(';').map(squeezed).filter(|text| !text.is_empty());
    let expected: BTreeSet<String> = exported().iter().map(rust_declaration).collect();
    assert_eq!(declared.collect::<BTreeSet<_>>(), expected);
}

/// The structs with these names in a Rattle or Rust source.
fn structs(paths: &[String]) -> BTreeMap<String, Vec<Typed>> {
    let names = ["Session", "Answer", "Term", "Number", "Written", "Line"];
    let mut found = BTreeMap::new();
    for text in paths.iter().map(|path| code(path)) {
        for start in text.split("pub struct ").skip(1) {
            let (name, rest) = start.split_once([' ', '(']).expect("a struct has a name");
            if names.contains(&name) {
                let (fields, _) = rest.split_once('}').expect("a struct has an end");
                let fields = fields
                    .trim_start_matches('{')
                    .replace("shape::ROWS", "96")
                    .replace("SETS_LEN", "768")
                    .replace("BARRED", "768")
                    .replace("ROWS", "96");
                found.insert(name.to_string(), typed(&fields));
            }
        }
    }
    assert_eq!(found.len(), names.len(), "{found:?}");
    found
}

fn exported_structs() -> BTreeMap<String, Vec<Typed>> {
    structs(
        &["session", "terms", "factory", "lines"].map(|name| format!("crates/{name}/src/lib.rt")),
    )
}

fn c_struct((name, fields): (&String, &Vec<Typed>)) -> String {
    let field = |(name, of): &Typed| match of.trim_matches(['[', ']']).split_once(';') {
        Some((of, length)) => format!("{} {name}[{}];", c_type(of), length.trim()),
        None => format!("{} {name};", c_type(of)),
    };
    let fields: String = fields.iter().map(field).collect();
    let name = c_type(name);
    squeezed(&format!("struct {name} {{ {fields} }} {name}"))
}

#[test]
fn the_header_has_the_structs_that_cross() {
    let expected: BTreeSet<String> = exported_structs().iter().map(c_struct).collect();
    assert_eq!(header().1, expected);
}

#[test]
fn the_binding_has_the_structs_that_cross() {
    let modules = ["session", "relation", "works", "broadcast"];
    let paths = modules.map(|module| format!("rust/gantsorol/src/{module}.rs"));
    assert_eq!(structs(&paths), exported_structs());
}

#[test]
fn the_archive_has_the_declared_functions_and_no_other() {
    let exports = exports(Path::new(env!("GANTSOROL_ARCHIVE")));
    let declarations = header().0;
    let name = |declaration: &String| {
        let (head, _) = declaration.split_once(" (").expect("a function has parameters");
        head.rsplit(' ').next().unwrap_or_default().to_string()
    };
    let declared: BTreeMap<String, String> =
        declarations.iter().map(|declaration| (name(declaration), "T".to_string())).collect();
    assert_eq!(exports, declared);
}

/// The binding's tests hold them against the library.
#[test]
fn the_header_has_the_constants_of_the_binding() {
    let header = fs::read_to_string(repository().join("include/gantsorol.h")).expect("the header");
    let constant = |line: &str| {
        let line = Some(line).filter(|line| !line.contains("_VERSION_"))?;
        let (name, value) = line.strip_prefix("#define GANTSOROL_")?.split_once(' ')?;
        Some((name.to_string(), value.trim_end_matches('u').parse::<usize>().ok()?))
    };
    let expected = [
        ("DEALERS", DEALERS),
        ("DEALERS_LEN", DEALERS_LEN),
        ("DEAL_LINE_LEN", DEAL_LINE_LEN),
        ("LONGEST_LINE", LONGEST_LINE),
        ("MAX_POINTS", MAX_POINTS),
        ("MAX_POSTS", MAX_POSTS),
        ("MAX_TERMS", MAX_TERMS),
        ("MODULUS", MODULUS as usize),
        ("MOST_STACK", MOST_STACK),
        ("NO_ROW", NO_ROW.into()),
        ("ROWS", ROWS),
        ("SET_LEN", SET_LEN),
    ]
    .map(|(name, value)| (name.to_string(), value));
    assert_eq!(SETS_LEN, 768, "what the structs are compared with");
    assert_eq!(header.lines().filter_map(constant).collect::<BTreeMap<_, _>>(), expected.into());
}
