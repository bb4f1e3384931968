//! What is run: a list of steps, and what is drawn for it.

use reference::Term;

use super::Last;

/// A load or a call that all posts make, or a rule broken on purpose.
#[derive(Clone, Copy, Debug)]
pub enum Step {
    LoadRow(usize),
    LoadTriple(usize),
    Deal(usize),
    /// Makes the opening message, for which post 1 calls, and broadcasts it.
    Message(usize),
    /// A dealer places the D line of a row's dealer.
    Place {
        dealer: usize,
        row: usize,
    },
    /// A dealer places a line of fixed bytes.
    PlaceFixed {
        dealer: usize,
        line: &'static str,
    },
    /// A turn over the dealers' lines.
    Turn,
    /// Reads an `A` line.
    Callers(&'static str),
    /// Opens with all that was broadcast for the row before.
    Open(usize),
    Linear {
        dest: usize,
        a: usize,
        b: usize,
        scale: u32,
        fee: u32,
    },
    /// Makes the masks and broadcasts them.
    Masks {
        a: usize,
        b: usize,
        first: usize,
    },
    /// Finishes with all that was broadcast for the triple before: both calls.
    Finish(usize),
    /// The first call of a finish.
    OpenMasks(usize),
    /// The second call of a finish.
    Multiply(usize),
    /// Makes the masks of a relation and broadcasts a line for each product term.
    RelationMasks(&'static [Term]),
    /// Finishes a relation with all that was broadcast for its triples before.
    RelationFinish {
        terms: &'static [Term],
        dest: usize,
    },
    /// Breaks a rule: the session's mark of a row is overwritten.
    Overwrite {
        row: usize,
        mark: u8,
    },
    /// Breaks a rule: the first of the numbers that a session remembers for a triple is overwritten.
    Remember {
        first: usize,
        y: u32,
    },
    /// Breaks a rule: the posts that are barred from a row are forgotten.
    Unbar(usize),
    /// Breaks a rule: the pack drawn for row `of` is loaded into another one too.
    LoadAgain {
        of: usize,
        into: usize,
    },
    /// Breaks a rule: the triple drawn for row `of` is loaded into others too.
    LoadTripleAgain {
        of: usize,
        into: usize,
    },
    /// Breaks a rule: a finish that adds y y' "to the polynomial's constant too, so it counts
    /// nothing". The check values follow, or nobody would accept the polynomials.
    FinishWithConstant(usize),
    /// Breaks a rule: an opening whose record also holds, for these posts, polynomials that they
    /// didn't send.
    OpenForged {
        row: usize,
        forged: &'static [(usize, [u32; 2])],
    },
    /// Breaks a rule: a sum that adds its fee to the polynomial's constant too, a plus the fee.
    FeeWithConstant {
        dest: usize,
        a: usize,
        fee: u32,
    },
}

/// A row drawn raw.
#[derive(Clone, Copy, Debug)]
pub struct Raw {
    pub row: usize,
    /// The pad of which row its dealer uses: its own, unless a rule is broken.
    pub pad_of: usize,
    /// The post that deals it; 0 for somebody who is no post.
    pub dealer: usize,
}

/// A fixed list of calls, and what is drawn for it.
pub struct Plan {
    pub n: usize,
    pub t: usize,
    /// The number of check points of each post.
    pub k: usize,
    pub raw: Vec<Raw>,
    /// The first rows of the triples drawn.
    pub triples: Vec<usize>,
    pub steps: Vec<Step>,
    /// The last opening, at which the group may lie.
    pub last: Option<Last>,
}
