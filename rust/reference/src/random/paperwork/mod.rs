//! Calls without a session: the factory, the dealer's number, lines, and pack files.

mod other_draw;
mod packs;

use super::call::unwritten;
use super::damage::{damage_list, damage_size, random_length};
use super::{check_points, join, mutate, street_shape, Rng, SharedRow};
use crate::{Library, ReadLine, Shape, Written, ROWS, TRIPLE};

/// A call without a session. Lists to be filled are given by their length.
#[derive(Clone, Debug, PartialEq, Eq)]
#[allow(missing_docs)]
pub enum Paperwork {
    FactoryRow { n: usize, t: usize, k: usize, points: Vec<u32>, draw: Vec<u32>, out: usize },
    FactoryTriple { n: usize, t: usize, k: usize, points: Vec<u32>, draw: Vec<u32>, out: usize },
    DealerNumber { u: u32, f0: u32 },
    WriteDeal { n: usize, t: usize, row: usize, c: u32, out: usize },
    WriteOpening(WriteMessage),
    WriteMasks(WriteMessage),
    Read { n: usize, t: usize, k: usize, line: Vec<u8>, out: usize },
    WritePack(WritePack),
    OtherDraw(OtherDraw),
}

/// The arguments of a message's writer.
#[derive(Clone, Debug, PartialEq, Eq)]
#[allow(missing_docs)]
pub struct WriteMessage {
    pub n: usize,
    pub t: usize,
    pub k: usize,
    pub row: usize,
    pub post: usize,
    pub numbers: Vec<u32>,
    pub out: usize,
}

/// The arguments of a pack file's writer.
#[derive(Clone, Debug, PartialEq, Eq)]
#[allow(missing_docs)]
pub struct WritePack {
    pub n: usize,
    pub t: usize,
    pub k: usize,
    pub post: usize,
    pub points: Vec<u32>,
    pub kinds: Vec<u8>,
    pub draws: Vec<u32>,
    pub out: usize,
}

/// The arguments of the call for the draw behind another secret.
#[derive(Clone, Debug, PartialEq, Eq)]
#[allow(missing_docs)]
pub struct OtherDraw {
    pub n: usize,
    pub t: usize,
    pub k: usize,
    pub points: Vec<u32>,
    pub draw: Vec<u32>,
    pub secret: u32,
    pub wanted: u32,
    pub posts: Vec<usize>,
    pub out: usize,
}

/// Everything that such a call hands back or may have changed.
#[derive(Clone, Debug, PartialEq, Eq)]
#[allow(missing_docs)]
pub enum PaperworkOutcome {
    Factory { refusal: u8, out: Vec<u32> },
    DealerNumber { refusal: u8, c: u32 },
    Written { written: Written, out: Vec<u8> },
    Read { read: ReadLine, out: Vec<u32> },
}

impl Paperwork {
    /// Makes the call.
    pub fn perform(&self, library: &impl Library) -> PaperworkOutcome {
        match *self {
            Self::FactoryRow { n, t, k, ref points, ref draw, out } => {
                let mut out = unwritten(out);
                let refusal = library.factory_row(n, t, k, points, draw, &mut out);
                PaperworkOutcome::Factory { refusal, out }
            }
            Self::FactoryTriple { n, t, k, ref points, ref draw, out } => {
                let mut out = unwritten(out);
                let refusal = library.factory_triple(n, t, k, points, draw, &mut out);
                PaperworkOutcome::Factory { refusal, out }
            }
            Self::DealerNumber { u, f0 } => {
                let (refusal, c) = library.dealer_number(u, f0);
                PaperworkOutcome::DealerNumber { refusal, c }
            }
            Self::WriteDeal { n, t, row, c, out } => {
                written(out, |out| library.write_deal(n, t, row, c, out))
            }
            Self::WriteOpening(WriteMessage { n, t, k, row, post, ref numbers, out }) => {
                written(out, |out| library.write_opening(n, t, k, row, post, numbers, out))
            }
            Self::WriteMasks(WriteMessage { n, t, k, row, post, ref numbers, out }) => {
                written(out, |out| library.write_masks(n, t, k, row, post, numbers, out))
            }
            Self::Read { n, t, k, ref line, out } => {
                let mut out = unwritten(out);
                let read = library.read(n, t, k, line, &mut out);
                PaperworkOutcome::Read { read, out }
            }
            Self::WritePack(ref pack) => {
                let WritePack { n, t, k, post, out, ref points, ref kinds, ref draws } = *pack;
                written(out, |out| library.write_pack(n, t, k, post, points, kinds, draws, out))
            }
            Self::OtherDraw(ref other) => other.perform(library),
        }
    }

    fn lists(&mut self) -> Vec<&mut Vec<u32>> {
        match self {
            Self::FactoryRow { points, draw, .. } | Self::FactoryTriple { points, draw, .. } => {
                vec![points, draw]
            }
            Self::WriteOpening(message) | Self::WriteMasks(message) => vec![&mut message.numbers],
            Self::WritePack(WritePack { points, draws: draw, .. })
            | Self::OtherDraw(OtherDraw { points, draw, .. }) => vec![points, draw],
            _ => vec![],
        }
    }

    fn sizes(&mut self) -> Vec<&mut usize> {
        match self {
            Self::DealerNumber { .. } => vec![],
            Self::FactoryRow { n, t, k, out, .. }
            | Self::FactoryTriple { n, t, k, out, .. }
            | Self::OtherDraw(OtherDraw { n, t, k, out, .. })
            | Self::Read { n, t, k, out, .. } => vec![n, t, k, out],
            Self::WriteDeal { n, t, row, out, .. } => vec![n, t, row, out],
            Self::WritePack(WritePack { n, t, k, post, out, .. }) => vec![n, t, k, post, out],
            Self::WriteOpening(message) | Self::WriteMasks(message) => {
                let WriteMessage { n, t, k, row, post, out, .. } = message;
                vec![n, t, k, row, post, out]
            }
        }
    }

    fn scalars(&mut self) -> Vec<&mut u32> {
        match self {
            Self::DealerNumber { u, f0 } => vec![u, f0],
            Self::WriteDeal { c, .. } => vec![c],
            Self::OtherDraw(OtherDraw { secret, wanted, .. }) => vec![secret, wanted],
            _ => vec![],
        }
    }

    /// Makes one argument wrong, or at least different.
    fn damage(&mut self, rng: &mut Rng) {
        if let Self::Read { line, .. } = self {
            if !rng.one_in(6) {
                *line = mutate(rng, line);
                return;
            }
        }
        match self {
            Self::WritePack(pack) if rng.one_in(2) => return pack.damage_kinds(rng),
            Self::OtherDraw(other) if rng.one_in(2) => return other.damage_posts(rng),
            _ => {}
        }
        let (lists, sizes, scalars) =
            (self.lists().len(), self.sizes().len(), self.scalars().len());
        let choice = rng.below(lists + sizes + scalars);
        if choice < lists {
            damage_list(rng, self.lists()[choice]);
        } else if choice < lists + sizes {
            damage_size(rng, self.sizes()[choice - lists]);
        } else {
            *self.scalars()[choice - lists - sizes] = rng.number();
        }
    }
}

/// The most bytes of a part to be written: a random pack file has fewer.
const LONGEST_FILE: usize = 1 << 18;

/// What a writer hands back and leaves in a part of so many bytes, in which every write is seen.
pub fn written(length: usize, write: impl FnOnce(&mut [u8]) -> Written) -> PaperworkOutcome {
    let mut out: Vec<u8> = (0..length.min(LONGEST_FILE)).map(|place| 128 | place as u8).collect();
    let written = write(&mut out);
    PaperworkOutcome::Written { written, out }
}

/// The call of `seed`: about half are valid, the others have one or two things wrong.
pub fn paperwork(seed: u64) -> Paperwork {
    let mut rng = Rng::new(seed);
    let mut work = valid(&mut rng);
    if rng.one_in(2) {
        for _ in 0..rng.between(1, 2) {
            work.damage(&mut rng);
        }
    }
    work
}

fn valid(rng: &mut Rng) -> Paperwork {
    let kind = rng.below(14);
    // The factory takes long for large stations.
    let small = !(4..12).contains(&kind) && !rng.one_in(5);
    let shape = if small { street_shape(rng) } else { super::shape(rng) };
    let (n, t, k) = (shape.posts(), shape.threshold(), shape.points());
    match kind {
        0 | 1 => factory(rng, shape, kind == 0),
        2 | 3 => Paperwork::WritePack(WritePack::valid(rng, shape)),
        4 => Paperwork::DealerNumber { u: rng.element(), f0: rng.element() },
        5 => {
            let (row, c) = (rng.below(ROWS), rng.element());
            let out = room(rng, &join("D", [row as u64, c.into()]));
            Paperwork::WriteDeal { n, t, row, c, out }
        }
        6 => Paperwork::WriteOpening(write_message(rng, shape, "O")),
        7 => Paperwork::WriteMasks(write_message(rng, shape, "M")),
        12 | 13 => Paperwork::OtherDraw(OtherDraw::valid(rng, shape)),
        _ => Paperwork::Read { n, t, k, line: valid_line(rng, shape), out: shape.masks() },
    }
}

fn write_message(rng: &mut Rng, shape: Shape, letter: &str) -> WriteMessage {
    let (n, t, k) = (shape.posts(), shape.threshold(), shape.points());
    let post = rng.between(1, n);
    let (rows, count) = match letter {
        "O" => (ROWS, shape.coefficients()),
        _ => (ROWS - TRIPLE + 1, shape.masks()),
    };
    let (row, numbers) = (rng.below(rows), rng.elements(count));
    let out = room(rng, &post_line(letter, row, post, &numbers));
    WriteMessage { n, t, k, row, post, numbers, out }
}

fn factory(rng: &mut Rng, shape: Shape, one_row: bool) -> Paperwork {
    let (n, t, k) = (shape.posts(), shape.threshold(), shape.points());
    let points = check_points(rng, shape);
    if one_row {
        let draw = SharedRow::random(rng, shape).draw();
        return Paperwork::FactoryRow { n, t, k, points, draw, out: shape.row_packs() };
    }
    let draw = SharedRow::triple_draw(&SharedRow::random_triple(rng, shape));
    Paperwork::FactoryTriple { n, t, k, points, draw, out: TRIPLE * shape.row_packs() }
}

/// A part that the line fits in, or just doesn't.
fn room(rng: &mut Rng, line: &[u8]) -> usize {
    match rng.below(4) {
        0 => line.len(),
        1 => random_length(rng, line.len()),
        _ => line.len() + rng.below(8),
    }
}

fn post_line(letter: &str, row: usize, post: usize, numbers: &[u32]) -> Vec<u8> {
    let heading = [row as u64, post as u64];
    join(letter, heading.into_iter().chain(numbers.iter().map(|&number| number.into())))
}

fn valid_line(rng: &mut Rng, shape: Shape) -> Vec<u8> {
    let post = rng.between(1, shape.posts());
    match rng.below(3) {
        0 => join("D", [rng.below(ROWS) as u64, rng.element().into()]),
        1 => post_line("O", rng.below(ROWS), post, &rng.elements(shape.coefficients())),
        _ => post_line("M", rng.below(ROWS - TRIPLE + 1), post, &rng.elements(shape.masks())),
    }
}
