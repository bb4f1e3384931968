//! Which refusals a test has met.

use std::collections::BTreeMap;
use std::fmt::{Debug, Error, Result, Write};

/// Kinds of calls, each with refusals.
pub type Met<'a> = &'a [(&'a str, &'a [u8])];

const SESSION: &[u8] = &[0, 1, 2, 3, 4, 5, 6, 7, 8];
const OPENING: &[u8] = &[0, 1, 2, 3, 4, 5, 6, 7, 8, 9, 13];

/// Every refusal that a [`Call`](super::Call) can get.
pub const CALL_REFUSALS: Met = &[
    ("NewSession", &[0, 1, 2, 3, 4]),
    ("LoadRow", SESSION),
    ("LoadTriple", SESSION),
    ("Deal", SESSION),
    ("OpeningMessage", &[0, 1, 2, 3, 4, 5, 6, 7, 8, 15]),
    ("SetCallers", &[0, 1, 2, 3, 4, 7, 10, 11]),
    ("NewDealers", &[0, 5]),
    ("PlaceLine", &[0, 5, 10, 16, 17]),
    ("Turn", &[0, 1, 2, 3, 4, 5, 7, 8, 10, 11, 16]),
    ("Open", OPENING),
    ("Linear", SESSION),
    ("Masks", SESSION),
    ("OpenMasks", OPENING),
    ("Multiply", SESSION),
    ("RelationMasks", &[0, 1, 2, 3, 4, 5, 6, 7, 8, 14]),
    ("RelationFinish", &[0, 1, 2, 3, 4, 5, 6, 7, 8, 9, 13, 14]),
];

/// Every refusal that [`Paperwork`](super::Paperwork) can get.
pub const PAPERWORK_REFUSALS: Met = &[
    ("FactoryRow", &[0, 1, 2, 4, 5, 8]),
    ("FactoryTriple", &[0, 1, 2, 4, 5, 8]),
    ("DealerNumber", &[0, 8]),
    ("WriteDeal", &[0, 1, 2, 6, 8, 12]),
    ("WriteOpening", &[0, 1, 2, 3, 4, 5, 6, 8, 12]),
    ("WriteMasks", &[0, 1, 2, 3, 4, 5, 6, 8, 12]),
    ("Read", &[0, 1, 2, 4, 5, 10, 11]),
    ("WritePack", &[0, 1, 2, 3, 4, 5, 6, 7, 8, 12]),
    ("OtherDraw", &[0, 1, 2, 4, 5, 8, 18, 19]),
];

/// Every refusal that a line of the street program can get, by its letter; 1 for any before a start.
pub const STREET_REFUSALS: Met = &[
    ("S", &[0, 1, 2, 3, 4, 10]),
    ("W", &[0, 1, 2, 3, 4, 10]),
    ("R", &[0, 1, 7, 10, 11]),
    ("T", &[0, 1, 7, 10, 11]),
    ("D", &[0, 1, 7, 10, 11]),
    ("A", &[0, 1, 7, 10, 11]),
    ("O", &[0, 1, 10, 11]),
    ("G", &[0, 1, 7, 9, 10, 11, 13]),
    ("L", &[0, 1, 7, 10, 11]),
    ("X", &[0, 1, 7, 10, 11]),
    ("M", &[0, 1, 10, 11]),
    ("F", &[0, 1, 7, 9, 10, 11, 13]),
];

/// How often each kind of call met each refusal.
#[derive(Debug, Default)]
pub struct Seen(BTreeMap<(String, u8), u64>);

impl Seen {
    /// Counts a call's refusal.
    pub fn note(&mut self, call: &impl Debug, refusal: u8) {
        self.note_kind(&kind(call), refusal);
    }

    /// Counts a refusal of a call of this kind.
    pub fn note_kind(&mut self, kind: &str, refusal: u8) {
        *self.0.entry((kind.to_string(), refusal)).or_default() += 1;
    }

    /// How often a kind of call met a refusal.
    pub fn count(&self, kind: &str, refusal: u8) -> u64 {
        self.0.get(&(kind.to_string(), refusal)).copied().unwrap_or(0)
    }

    /// Panics unless each of these kinds met each of its refusals.
    #[track_caller]
    pub fn assert_met(&self, expected: Met) {
        for (kind, refusals) in expected {
            for &refusal in *refusals {
                assert!(self.count(kind, refusal) > 0, "no {kind} with {refusal}: {:?}", self.0);
            }
        }
    }
}

/// The name of an enum's case, which is what its text begins with; the rest is not written.
fn kind(call: &impl Debug) -> String {
    struct Name(String);
    impl Write for Name {
        fn write_str(&mut self, text: &str) -> Result {
            let name = text.split([' ', '(']).next().unwrap_or_default();
            self.0 += name;
            if name.len() == text.len() {
                Ok(())
            } else {
                Err(Error)
            }
        }
    }
    let mut name = Name(String::new());
    // The error is the end of the name.
    _ = write!(name, "{call:?}");
    name.0
}
