//! The street program: one post's session, driven by lines.

mod fields;
mod kept;
mod station;

use crate::refusal::Refusal;
use crate::session::Session;
use fields::first_field;
use station::Station;

/// "The street program stays at 32 and gives 1 above that."
pub const STREET_POSTS: usize = 32;

/// The longest line that the program takes, with its line feed.
pub const LONGEST_LINE: usize = 5252;

/// The whole program, from its standard input to its standard output.
pub fn street<const P: u32>(input: &[u8]) -> Vec<u8> {
    let mut program = Street::<P>::default();
    let mut output = b"line,refusal,value\n".to_vec();
    for (line, index) in input.split_inclusive(|&byte| byte == b'\n').zip(1u64..) {
        let (refusal, reply) = match program.line(line) {
            Ok(reply) => (0, reply),
            Err(refusal) => (refusal.number(), Reply::default()),
        };
        output.extend(format!("{index},{refusal},{}\n", reply.value).into_bytes());
        output.extend(reply.line);
    }
    output
}

/// What the program prints for a line that it takes, beside the line's number and the refusal 0.
#[derive(Clone, Debug, Default, PartialEq, Eq)]
pub struct Reply {
    /// The number opened, "with 0 for a value except at G".
    pub value: u32,
    /// "X, when not refused, also prints its M line, after its answer"; else empty.
    pub line: Vec<u8>,
}

/// The program between two lines.
#[derive(Default)]
pub struct Street<const P: u32> {
    station: Option<Station<P>>,
}

impl<const P: u32> Street<P> {
    /// The session and the rows, once there is a session.
    pub fn state(&self) -> Option<(Session, &[u32])> {
        self.station.as_ref().map(Station::state)
    }

    /// Takes one line, with its line feed unless the input ended first.
    pub fn line(&mut self, line: &[u8]) -> Result<Reply, Refusal> {
        let start_line = matches!(first_field(line), b"S" | b"W");
        match &mut self.station {
            None if start_line => {
                self.station = Some(Station::start(line)?);
                Ok(Reply::default())
            }
            // "Until one is accepted any other line gets 1, an overlong one too."
            None => Err(Refusal::Posts),
            // "A second start line of either letter gets 10", as does "any line over" the longest.
            Some(_) if start_line || line.len() > LONGEST_LINE => Err(Refusal::Form),
            Some(station) => station.line(line),
        }
    }
}
