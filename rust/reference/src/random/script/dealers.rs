//! The valid calls of a script over the dealers' state.

use super::{Author, Step};
use crate::random::{join, Call};
use crate::{mark, DEALERS, MODULUS, PLACE, ROWS};

/// A line that waits, and what it says: a row and c, or the refusal of a line that is no such.
#[derive(Clone)]
struct Waiting {
    line: Vec<u8>,
    says: Result<(usize, u32), u8>,
}

/// The dealers as the author keeps them.
pub(super) struct Dealers {
    last: usize,
    waiting: [Option<Waiting>; DEALERS],
    /// What stands in each place, whether a line waits or not.
    bytes: [[u8; PLACE]; DEALERS],
}

impl Dealers {
    /// "A new state holds 8 as last served, then zeros."
    pub(super) fn new() -> Self {
        let waiting = std::array::from_fn(|_| None);
        Self { last: DEALERS, waiting, bytes: [[0; PLACE]; DEALERS] }
    }

    /// The lent state.
    pub(super) fn state(&self) -> Vec<u8> {
        let mut state = vec![self.last as u8];
        for (waiting, bytes) in self.waiting.iter().zip(&self.bytes) {
            state.push(waiting.as_ref().map_or(0, |waiting| waiting.line.len() as u8));
            state.extend(bytes);
        }
        state
    }

    /// The dealers with a line waiting, or with none.
    fn with_line(&self, waits: bool) -> Vec<usize> {
        let dealers = 1..=DEALERS;
        dealers.filter(|&dealer| self.waiting[dealer - 1].is_some() == waits).collect()
    }

    fn place(&mut self, dealer: usize, waiting: Waiting) {
        self.bytes[dealer - 1][..waiting.line.len()].copy_from_slice(&waiting.line);
        self.waiting[dealer - 1] = Some(waiting);
    }

    /// "From the dealer after the one last served, going round, the first with a line waiting."
    fn take(&mut self) -> Option<Waiting> {
        let waits = self.with_line(true);
        let after = waits.iter().find(|&&dealer| dealer > self.last);
        self.last = *after.or(waits.first())?;
        self.waiting[self.last - 1].take()
    }
}

impl Author<'_> {
    /// The dealers' state made anew, with every line lost.
    pub(super) fn new_dealers(&mut self) -> Option<()> {
        self.dealers = Dealers::new();
        self.step(Call::NewDealers, None);
        Some(())
    }

    /// A line for a free place, and trials for a filled one.
    pub(super) fn place_line(&mut self) -> Option<()> {
        let filled = self.dealers.with_line(true);
        if let Some(dealer) = self.rng.pick_any(&filled) {
            let line = self.some_line().line;
            self.steps.push(Step::trial(Call::PlaceLine { dealer, line }));
        }
        let free = self.dealers.with_line(false);
        let dealer = self.rng.pick_any(&free)?;
        let waiting = self.some_line();
        let line = waiting.line.clone();
        self.dealers.place(dealer, waiting);
        self.step(Call::PlaceLine { dealer, line }, None);
        Some(())
    }

    /// Mostly a line that can be dealt.
    fn some_line(&mut self) -> Waiting {
        let raw = self.pick(mark::RAW).filter(|_| !self.rng.one_in(6));
        let row = raw.unwrap_or_else(|| self.rng.below(ROWS));
        let c = self.rng.element();
        let deal = |row: usize, c: u32| join("D", [row as u64, c.into()]);
        match self.rng.below(9) {
            0 => {
                let row = self.rng.pick(&[ROWS, ROWS + 1, 9999]);
                Waiting { line: deal(row, 7), says: Err(11) }
            }
            1 => Waiting { line: deal(row, self.rng.pick(&[MODULUS, u32::MAX])), says: Err(11) },
            2 => Waiting { line: self.no_deal(row), says: Err(10) },
            _ => Waiting { line: deal(row, c), says: Ok((row, c)) },
        }
    }

    /// A line of another letter or of no right form, 1 to 16 bytes long.
    fn no_deal(&mut self, row: usize) -> Vec<u8> {
        let row = row as u64;
        match self.rng.below(5) {
            // With t = 1 these have the right form, and this row is none.
            0 => b"O,99,1,5,5\n".to_vec(),
            1 => b"M,94,1,1,1,1,1\n".to_vec(),
            2 => join("A", [row, 1]),
            3 => (0..self.rng.between(1, PLACE)).map(|_| self.rng.below(256) as u8 | 128).collect(),
            _ => self.rng.pick(&[b"D,0,093\n" as &[u8], b"D,0,1", b"D,0\n", b"\n", b"D"]).to_vec(),
        }
    }

    /// A turn, which takes a line where one waits, and which may be refused then.
    pub(super) fn turn(&mut self) -> Option<()> {
        let before = self.dealers.state();
        let taken = self.dealers.take();
        let refusal = match taken.as_ref().map(|waiting| waiting.says) {
            Some(Ok((row, c))) if self.marks[row] == mark::RAW => {
                let dealt = self.shared(row).plus_public(c);
                self.keep(row, mark::HELD, dealt);
                0
            }
            Some(Ok(_)) => 7,
            Some(Err(refusal)) => refusal,
            None => {
                assert_eq!(self.dealers.state(), before, "no line waits");
                0
            }
        };
        // What is damaged is the row that the line names.
        let line = taken.map_or(vec![], |waiting| waiting.line);
        let about = Call::PlaceLine { dealer: self.dealers.last, line };
        for _ in 0..self.rng.below(4) {
            let damage = self.damage_about(&about);
            self.steps.push(Step { damage: vec![damage], ..Step::trial(Call::Turn) });
        }
        self.steps.push(Step { trial: false, refusal, ..Step::trial(Call::Turn) });
        Some(())
    }
}
