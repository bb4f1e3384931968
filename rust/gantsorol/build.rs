//! Links the static library that `rt lib` writes in `crates/gantsorol`.
//!
//! `GANTSOROL_LIB` names the archive; without it the one that `rt lib` wrote in this repository is taken.

use std::env;
use std::path::{Path, PathBuf};
use std::process::exit;

const BUILT: &str = "../../crates/gantsorol/out/libgantsorol.a";

fn main() {
    println!("cargo:rerun-if-env-changed=GANTSOROL_LIB");
    let archive = match env::var_os("GANTSOROL_LIB") {
        Some(path) => PathBuf::from(path),
        None => Path::new(env!("CARGO_MANIFEST_DIR")).join(BUILT),
    };
    println!("cargo:rerun-if-changed={}", archive.display());
    let Ok(found) = archive.canonicalize() else { missing(&archive, "there is no such file") };
    let name = found.file_name().and_then(|name| name.to_str());
    let Some(name) = name.and_then(|name| name.strip_prefix("lib")?.strip_suffix(".a")) else {
        missing(&found, "its name is not lib*.a")
    };
    let folder = found.parent().expect("a file stands in a folder");
    println!("cargo:rustc-link-search=native={}", folder.display());
    println!("cargo:rustc-link-lib=static={name}");
    // The tests compare this archive with the header.
    println!("cargo:rustc-env=GANTSOROL_ARCHIVE={}", found.display());
}

fn missing(archive: &Path, why: &str) -> ! {
    eprintln!("error: the library cannot be linked: {}: {why}", archive.display());
    eprintln!("Build it with `rt lib` in the repository's folder crates/gantsorol,");
    eprintln!("or set GANTSOROL_LIB to the path of libgantsorol.a.");
    exit(1)
}
