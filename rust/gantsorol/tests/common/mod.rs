//! What the tests share: the verified library as the second implementation's trait, seeds, programs.
#![allow(dead_code, unused_imports)]

mod handed;
pub mod programs;
mod verified;

use std::env;
use std::ops::Range;
use std::str::FromStr;

pub use verified::{new_session, Verified};

/// The seeds of a test: from 0 on in the gate. `GANTSOROL_SEED` gives another first one,
/// `GANTSOROL_CASES` another count.
pub fn seeds(count: u64) -> Range<u64> {
    let first = from_environment("GANTSOROL_SEED").unwrap_or(0);
    let count = from_environment("GANTSOROL_CASES").unwrap_or(count);
    first..first.checked_add(count).expect("GANTSOROL_SEED + GANTSOROL_CASES is below 2^64")
}

/// The street program, proved and built by the gate.
pub fn street_program() -> String {
    env::var("GANTSOROL_STREET")
        .unwrap_or_else(|_| panic!("GANTSOROL_STREET names the street program (.ci/run sets it)"))
}

fn from_environment<T: FromStr>(name: &str) -> Option<T> {
    let text = env::var(name).ok()?;
    match text.parse() {
        Ok(number) => Some(number),
        Err(_) => panic!("{name}={text} is no number"),
    }
}
