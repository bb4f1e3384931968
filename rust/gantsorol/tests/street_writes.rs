//! The street program where its output cannot be written: it stops at the first failed write, says so on
//! standard error, and what came out before is the start of the right output.

mod common;

use std::env;
use std::ffi::c_int;
use std::fs::{self, File, OpenOptions};
use std::io::{self, pipe, PipeWriter, Read, Seek, Write};
use std::os::fd::AsRawFd;
use std::path::PathBuf;
use std::process::{self, ChildStdin, Command, Stdio};

use common::street_program;
use reference::random::street_input;
use reference::{Library, REFERENCE};

const UNWRITTEN: &[u8] = b"the answers could not be written\n";
const UNREAD: &[u8] = b"the input could not be read\n";

/// Random lines, and then so many short ones that no pipe holds their answers.
fn long_input() -> Vec<u8> {
    let mut input = street_input(1, 60);
    input.extend(b"\nx\n".repeat(100_000));
    input
}

/// A file of its own, removed when it is dropped.
struct Scratch(PathBuf);

impl Scratch {
    fn new(name: &str, content: &[u8]) -> Scratch {
        let path = env::temp_dir().join(format!("gantsorol-{name}-{}", process::id()));
        fs::write(&path, content).expect("a temporary file can be written");
        Scratch(path)
    }

    fn open(&self) -> File {
        File::open(&self.0).expect("it was just written")
    }
}

impl Drop for Scratch {
    fn drop(&mut self) {
        let _ = fs::remove_file(&self.0);
    }
}

/// The program, started by a shell line that sets up its standard streams; the line's `$0` is the program.
fn shell(line: &str) -> Command {
    let mut command = Command::new("sh");
    command.args(["-c", line, &street_program()]);
    command
}

/// What the program says on standard error.
fn said(command: &mut Command) -> Vec<u8> {
    command.stderr(Stdio::piped()).output().expect("the program runs").stderr
}

/// The start of the right output for the input, and not all of it.
fn assert_cut_short(printed: &[u8], input: &[u8]) {
    let right = REFERENCE.street(input);
    let common = printed.iter().zip(&right).take_while(|(a, b)| a == b).count();
    let shown = |bytes: &[u8]| {
        String::from_utf8_lossy(&bytes[common..bytes.len().min(common + 60)]).into_owned()
    };
    assert_eq!(common, printed.len(), "printed {:?}, right is {:?}", shown(printed), shown(&right));
    assert!(printed.len() < right.len(), "nothing was lost");
}

/// Nothing is read where the header cannot be written: the file that it shares with the program stays at its start.
fn assert_unread(line: &str, name: &str) {
    let input = Scratch::new(name, &long_input());
    let mut file = input.open();
    let shared = file.try_clone().expect("a file can be shared");
    assert_eq!(said(shell(line).stdin(shared).stdout(Stdio::null())), UNWRITTEN);
    assert_eq!(file.stream_position().expect("a file has a position"), 0, "the program read on");
}

#[test]
fn full_device() {
    assert_unread("exec \"$0\" > /dev/full", "full");
}

#[test]
fn closed_output() {
    assert_unread("exec \"$0\" >&-", "closed");
}

/// A pipe that nobody reads, with the signal ignored that would end the program.
#[test]
fn reader_gone() {
    let (reader, writer) = pipe().expect("a pipe can be made");
    drop(reader);
    let mut command = shell("trap '' PIPE; exec \"$0\"");
    assert_eq!(said(command.stdin(Stdio::null()).stdout(writer)), UNWRITTEN);
}

/// A file that may not grow on, with the signal ignored that would end the program.
#[test]
fn limit_on_size() {
    let input = long_input();
    let (source, target) = (Scratch::new("source", &input), Scratch::new("target", b""));
    let output = OpenOptions::new().write(true).open(&target.0).expect("it was just written");
    let mut command = shell("trap '' XFSZ; ulimit -f 100; exec \"$0\"");
    assert_eq!(said(command.stdin(source.open()).stdout(output)), UNWRITTEN);
    assert_cut_short(&fs::read(&target.0).expect("it can be read"), &input);
}

extern "C" {
    fn fcntl(fd: c_int, command: c_int, ...) -> c_int;
}

/// A write that finds no room fails at once.
fn set_nonblocking(writer: &PipeWriter) {
    const F_SETFL: c_int = 4;
    const O_NONBLOCK: c_int = 0o4000;
    // SAFETY: the descriptor is open, and F_SETFL takes an int.
    let status = unsafe { fcntl(writer.as_raw_fd(), F_SETFL, O_NONBLOCK) };
    assert_eq!(status, 0, "{}", io::Error::last_os_error());
}

/// Writes as long as the program reads.
fn offer(stdin: &mut ChildStdin, input: &[u8]) {
    if let Err(error) = stdin.write_all(input) {
        assert_eq!(error.kind(), io::ErrorKind::BrokenPipe);
    }
}

/// Writes fail for a while and would then work again: no later answer follows a torn line.
#[test]
fn pipe_not_read_for_a_while() {
    let input = long_input();
    let (first, second) = input.split_at(input.len() - 1_000);
    let (mut reader, writer) = pipe().expect("a pipe can be made");
    set_nonblocking(&writer);
    let mut child = Command::new(street_program())
        .stdin(Stdio::piped())
        .stdout(writer)
        .stderr(Stdio::piped())
        .spawn()
        .expect("the program starts");
    let mut stdin = child.stdin.take().expect("its standard input is piped");
    // all but a pipe of it is read before this returns, or the program has stopped
    offer(&mut stdin, first);
    let mut printed = vec![0; 20_000];
    reader.read_exact(&mut printed).expect("a pipe holds more");
    // there is room again
    offer(&mut stdin, second);
    drop(stdin);
    reader.read_to_end(&mut printed).expect("the pipe can be read");
    assert_cut_short(&printed, &input);
    assert_eq!(child.wait_with_output().expect("the program ends").stderr, UNWRITTEN);
}

/// A directory cannot be read: the header stays, and a note says why nothing follows.
#[test]
fn failed_read() {
    let output = shell("exec \"$0\" < /").output().expect("the program runs");
    assert_eq!(output.stdout, REFERENCE.street(b""));
    assert_eq!(output.stderr, UNREAD);
}
