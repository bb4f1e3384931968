//! The street program of the reference: standard input to standard output.

use std::io::{self, Read, Write};

use reference::{street, MODULUS};

fn main() -> io::Result<()> {
    let mut input = Vec::new();
    io::stdin().lock().read_to_end(&mut input)?;
    io::stdout().lock().write_all(&street::<MODULUS>(&input))
}
