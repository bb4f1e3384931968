//! `./install` in a folder of the test's own: what it puts there is enough to compile an example, by pkg-config where the machine
//! has it.

mod common;

use std::fs;
use std::path::{Path, PathBuf};
use std::process::{Command, Output};

use common::programs::{ended, repository};

fn folder(name: &str) -> PathBuf {
    let folder = Path::new(env!("CARGO_TARGET_TMPDIR")).join(name);
    let _ = fs::remove_dir_all(&folder);
    folder
}

fn installing(prefix: &Path, archive: &str) -> Command {
    let mut command = Command::new(repository().join("install"));
    command.env("PREFIX", prefix).env("GANTSOROL_LIB", archive).env_remove("DESTDIR");
    command
}

fn text(output: Output) -> String {
    String::from_utf8(output.stdout).expect("text")
}

/// The words of a field of the pkg-config file, its variables put in.
fn field(file: &str, name: &str) -> Vec<String> {
    let value = |start: &str| {
        let line = file.lines().find_map(|line| line.strip_prefix(start));
        line.unwrap_or_else(|| panic!("there is no {start}")).to_string()
    };
    let mut text = value(&format!("{name}: "));
    for variable in ["includedir", "libdir", "prefix"] {
        text = text.replace(&format!("${{{variable}}}"), &value(&format!("{variable}=")));
    }
    text.split_whitespace().map(str::to_string).collect()
}

/// What pkg-config says, where the machine has it.
fn by_pkg_config(folder: &Path, options: &[&str]) -> Option<Vec<String>> {
    let mut command = Command::new("pkg-config");
    command.args(options).arg("gantsorol").env("PKG_CONFIG_PATH", folder.join("lib/pkgconfig"));
    let output = command.output().ok()?;
    assert!(output.status.success(), "{}", String::from_utf8_lossy(&output.stderr));
    Some(text(output).split_whitespace().map(str::to_string).collect())
}

#[test]
fn an_example_compiles_with_what_is_installed() {
    let prefix = folder("installed");
    ended(&mut installing(&prefix, env!("GANTSOROL_ARCHIVE")));
    let file = fs::read_to_string(prefix.join("lib/pkgconfig/gantsorol.pc")).expect("a file");
    assert_eq!(field(&file, "Version"), [env!("CARGO_PKG_VERSION")]);
    let flags = [field(&file, "Cflags"), field(&file, "Libs")].concat();
    if let Some(said) = by_pkg_config(&prefix, &["--cflags", "--libs"]) {
        assert_eq!(said, flags);
    }
    let (source, program) = (repository().join("examples/sharing.c"), prefix.join("sharing"));
    ended(Command::new("cc").arg("-o").arg(&program).arg(source).args(flags));
    let printed = fs::read_to_string(repository().join("examples/sharing.out")).expect("a file");
    assert_eq!(text(ended(&mut Command::new(program))), printed);
}

/// The files are those of the repository, and anybody may read them.
#[test]
fn what_is_installed_is_the_archive_and_the_header() {
    use std::os::unix::fs::PermissionsExt;
    let (root, header) = (folder("packaged"), repository().join("include/gantsorol.h"));
    ended(installing(Path::new("/opt/g"), env!("GANTSOROL_ARCHIVE")).env("DESTDIR", &root));
    let files =
        [("include/gantsorol.h", header), ("lib/libgantsorol.a", env!("GANTSOROL_ARCHIVE").into())];
    for (path, source) in files {
        let installed = root.join("opt/g").join(path);
        assert_eq!(fs::read(&installed).expect("a file"), fs::read(source).expect("a file"));
        let mode = fs::metadata(installed).expect("a file").permissions().mode();
        assert_eq!(mode & 0o777, 0o644);
    }
    let file = fs::read_to_string(root.join("opt/g/lib/pkgconfig/gantsorol.pc")).expect("a file");
    assert_eq!(field(&file, "Libs"), ["-L/opt/g/lib", "-lgantsorol"]);
}

#[test]
fn without_an_archive_nothing_is_installed() {
    let prefix = folder("not_installed");
    let refused = |mut command: Command| !command.output().expect("it runs").status.success();
    assert!(refused(installing(&prefix, "/no/such/libgantsorol.a")));
    assert!(!prefix.exists());
    assert!(refused(installing(Path::new("not/from/the/root"), env!("GANTSOROL_ARCHIVE"))));
    assert!(refused(installing(Path::new("/with a blank"), env!("GANTSOROL_ARCHIVE"))));
}
