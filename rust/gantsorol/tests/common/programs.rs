//! Programs that the tests compile, look into and run.

use std::collections::BTreeMap;
use std::io::Write;
use std::path::{Path, PathBuf};
use std::process::{Command, Output, Stdio};
use std::thread;

/// The repository's root.
pub fn repository() -> PathBuf {
    Path::new(env!("CARGO_MANIFEST_DIR")).join("../..")
}

/// Options for a source in C, and for one that is to be taken as C++.
pub const C: [&str; 1] = ["-std=c99"];
pub const CPP: [&str; 3] = ["-std=c++11", "-x", "c++"];

/// Compiles a program with the header and the archive; where it is then.
pub fn compiled(name: &str, source: &Path, options: &[&str]) -> PathBuf {
    let binary = Path::new(env!("CARGO_TARGET_TMPDIR")).join(name);
    let mut cc = Command::new("cc");
    cc.args(["-O2", "-Wall", "-Wextra", "-Wpedantic", "-Werror"]).args(options);
    cc.arg("-I").arg(repository().join("include")).arg(source);
    ended(cc.args(["-x", "none", env!("GANTSOROL_ARCHIVE"), "-o"]).arg(&binary));
    binary
}

/// What an archive or a program has for others: names, and of which kind each is, `T` for a function.
pub fn exports(of: &Path) -> BTreeMap<String, String> {
    let output = ended(Command::new("nm").args(["-g", "--defined-only"]).arg(of));
    let listed = String::from_utf8(output.stdout).expect("nm writes text");
    let symbols = listed.lines().filter_map(|line| line.split_once(' ')?.1.split_once(' '));
    symbols.map(|(kind, name)| (name.to_string(), kind.to_string())).collect()
}

/// Runs a program to its end, which has to be a good one.
#[track_caller]
pub fn ended(command: &mut Command) -> Output {
    let program = command.get_program().to_os_string();
    let output = command.output().unwrap_or_else(|error| panic!("{program:?}: {error}"));
    let said = String::from_utf8_lossy(&output.stderr);
    assert!(output.status.success(), "{program:?} ends with {}\n{said}", output.status);
    output
}

/// What the program prints for an input, which is written while its output is read.
pub fn printed(command: &mut Command, input: &[u8]) -> Vec<u8> {
    let program = command.get_program().to_os_string();
    let mut child = command
        .stdin(Stdio::piped())
        .stdout(Stdio::piped())
        .spawn()
        .unwrap_or_else(|error| panic!("{program:?}: {error}"));
    let mut stdin = child.stdin.take().expect("its standard input is piped");
    thread::scope(|scope| {
        scope.spawn(move || stdin.write_all(input).expect("the program reads to the end"));
        let output = child.wait_with_output().expect("its output can be read");
        assert!(output.status.success(), "{program:?} ends with {}", output.status);
        output.stdout
    })
}
