//! A station of posts that are programs: its files, its posts started, their lines carried to the others.

use std::fs;
use std::io::{self, BufRead, BufReader, PipeReader, Write};
use std::path::{Path, PathBuf};
use std::process::{Command, Stdio};
use std::sync::mpsc::{channel, Sender};
use std::sync::OnceLock;
use std::thread;
use std::time::Duration;

use super::common::programs::{compiled, ended, repository, C};

#[allow(dead_code)]
pub mod in_rust {
    include!("../../examples/post.rs");

    /// The post, with its errors as text.
    pub fn told(
        pack: &Path,
        state: &Path,
        input: impl BufRead,
        output: impl Write,
    ) -> Result<String, String> {
        run(pack, state, input, output).map_err(|error| error.to_string())
    }
}

/// In which language a post is written.
#[derive(Clone, Copy, PartialEq)]
pub enum Kind {
    C,
    Rust,
}

/// The works' program and the post's, compiled once.
pub fn programs() -> &'static [PathBuf; 2] {
    static COMPILED: OnceLock<[PathBuf; 2]> = OnceLock::new();
    let example = |name: &str| {
        compiled(&format!("posts_{name}"), &repository().join(format!("examples/{name}.c")), &C)
    };
    COMPILED.get_or_init(|| ["station", "post"].map(example))
}

/// A folder with the files of a station.
pub struct Station {
    pub folder: PathBuf,
}

/// A post's line, or at its end what it opened.
pub enum Event {
    Line(usize, String),
    Ended(usize, String),
}

impl Station {
    /// Its dealers deal these rides, this rate and this fee.
    pub fn new(name: &str, numbers: [u32; 3]) -> Self {
        let folder = Path::new(env!("CARGO_TARGET_TMPDIR")).join(name);
        let _ = fs::remove_dir_all(&folder);
        fs::create_dir_all(&folder).expect("a folder can be made");
        let numbers = numbers.map(|number| number.to_string());
        ended(Command::new(&programs()[0]).arg(&folder).args(numbers));
        Self { folder }
    }

    pub fn pack(&self, post: usize) -> PathBuf {
        self.folder.join(format!("post-{post}.txt"))
    }

    pub fn state(&self, post: usize) -> PathBuf {
        self.folder.join(format!("state-{post}"))
    }

    pub fn deals(&self) -> String {
        fs::read_to_string(self.folder.join("deals.txt")).expect("the deals were written")
    }

    /// Starts a post: what it is fed with. Its lines and its end are told to `events`.
    pub fn start(&self, post: usize, kind: Kind, events: &Sender<Event>) -> Box<dyn Write + Send> {
        let (input, feeding) = io::pipe().expect("a pipe");
        let (output, sending) = io::pipe().expect("a pipe");
        let (pack, state, kept) = (self.pack(post), self.state(post), self.state(post));
        let run = move || match kind {
            Kind::Rust => in_rust::told(&pack, &state, BufReader::new(input), sending),
            Kind::C => {
                let mut command = Command::new(&programs()[1]);
                command.arg(pack).arg(state).stdin(input).stdout(sending).stderr(Stdio::piped());
                let child = command.spawn().expect("it starts");
                drop(command);
                let output = child.wait_with_output().expect("it ends");
                let said = String::from_utf8(output.stderr).expect("text").trim().to_string();
                if output.status.success() {
                    Ok(said)
                } else {
                    Err(said)
                }
            }
        };
        let events = events.clone();
        thread::spawn(move || {
            let running = thread::spawn(run);
            forward(post, output, &kept, &events);
            let opened = running.join().expect("it ends").unwrap_or_else(|why| why);
            let _ = events.send(Event::Ended(post, opened));
        });
        Box::new(feeding)
    }

    /// Runs these posts; each gets the deals, then every line of another post as `carried` hands it on. What each opened.
    pub fn run(
        &self,
        posts: &[(usize, Kind)],
        carried: impl Fn(usize, &str) -> String,
    ) -> Vec<String> {
        let (events, told) = channel();
        let start = |&(post, kind): &(usize, Kind)| (post, self.start(post, kind, &events));
        let mut inputs: Vec<_> = posts.iter().map(start).collect();
        drop(events);
        for (_, input) in &mut inputs {
            input.write_all(self.deals().as_bytes()).expect("it takes the deals");
        }
        let mut opened = vec![];
        while opened.len() < posts.len() {
            match told.recv_timeout(Duration::from_secs(60)).expect("no post waits for ever") {
                // A post that has ended takes no more lines.
                Event::Line(from, line) => {
                    let line = carried(from, &line);
                    let others = inputs.iter_mut().filter(|(post, _)| *post != from);
                    others.for_each(|(_, input)| drop(input.write_all(line.as_bytes())));
                }
                Event::Ended(post, text) => {
                    inputs.retain(|(running, _)| *running != post);
                    opened.push(text);
                }
            }
        }
        opened.sort();
        opened
    }
}

/// Hands a post's lines on. Each was stored before it was sent: a state without it would be the one from before.
fn forward(post: usize, output: PipeReader, state: &Path, events: &Sender<Event>) {
    for line in BufReader::new(output).lines() {
        let line = line.expect("text") + "\n";
        let lacks =
            |stored: Vec<u8>| !stored.windows(line.len()).any(|part| part == line.as_bytes());
        let event = match fs::read(state).is_ok_and(lacks) {
            true => Event::Ended(post, format!("{line} is sent and not stored")),
            false => Event::Line(post, line),
        };
        let _ = events.send(event);
    }
}
