//! The valid calls of a script, one kind each.

use super::record::Heard;
use super::{Author, Step};
use crate::random::{callers_line, Call, SharedRow};
use crate::{mark, ROWS, TRIPLE};

impl Author<'_> {
    /// One valid call of a random kind; none when no row suits it.
    pub(super) fn act(&mut self) {
        let _ = match self.rng.below(24) {
            0 | 1 => self.load_row(),
            2..=4 => self.load_triple(),
            5 | 6 => self.deal(),
            7 => self.opening_message(),
            8 | 9 => self.open(),
            10 => self.linear(),
            11 => self.masks(),
            12 => self.relation_masks(),
            13 => self.relation_finish(),
            14 | 15 => self.open_masks(),
            16 => self.set_callers(),
            17..=19 => self.place_line(),
            20 | 21 => self.turn(),
            22 if self.rng.one_in(8) => self.new_dealers(),
            _ => self.multiply(),
        };
    }

    fn load_row(&mut self) -> Option<()> {
        let row = self.pick(mark::EMPTY)?;
        let shared = SharedRow::random(self.rng, self.shape);
        let pack = self.own_part(&shared);
        self.keep(row, mark::RAW, shared);
        self.step(Call::LoadRow { row, pack }, None);
        Some(())
    }

    fn load_triple(&mut self) -> Option<()> {
        let empty = |first: &usize| self.marks[*first..][..TRIPLE] == [mark::EMPTY; TRIPLE];
        let firsts: Vec<usize> = (0..=ROWS - TRIPLE).filter(empty).collect();
        let first = self.rng.pick_any(&firsts)?;
        let triple = SharedRow::random_triple(self.rng, self.shape);
        let rows = triple.iter().map(|row| self.own_part(row));
        let pack = rows.collect::<Vec<_>>().concat();
        let marks = [mark::UNUSED, mark::FOLLOWING, mark::FOLLOWING];
        for ((shared, mark), row) in triple.into_iter().zip(marks).zip(first..) {
            self.keep(row, mark, shared);
        }
        self.step(Call::LoadTriple { first, pack }, None);
        Some(())
    }

    fn deal(&mut self) -> Option<()> {
        let row = self.pick(mark::RAW)?;
        let c = self.rng.element();
        let dealt = self.shared(row).plus_public(c);
        self.keep(row, mark::HELD, dealt);
        self.step(Call::Deal { row, c }, None);
        Some(())
    }

    fn opening_message(&mut self) -> Option<()> {
        let row = self.pick(mark::HELD)?;
        let out = self.shape.coefficients();
        let message = |caller| Call::OpeningMessage { row, caller, out };
        let n = self.shape.posts();
        let outside: Vec<usize> =
            (0..=n + 1).filter(|post| !self.callers[row].contains(post)).collect();
        let call = message(self.rng.pick(&outside));
        self.steps.push(Step::trial(call));
        let caller = self.rng.pick_any(&self.callers[row])?;
        self.step(message(caller), None);
        Some(())
    }

    fn set_callers(&mut self) -> Option<()> {
        let row = self.pick(mark::RAW)?;
        let often = self.rng.pick(&[1, 2, 3, 300]);
        let posts = (1..=self.shape.posts()).filter(|_| !self.rng.one_in(often));
        let posts: Vec<usize> = posts.collect();
        let line = callers_line(row, &posts);
        self.callers[row] = posts;
        self.step(Call::SetCallers { line }, None);
        Some(())
    }

    fn open(&mut self) -> Option<()> {
        let row = self.pick(mark::HELD)?;
        let shared = self.shared(row);
        for heard in [Heard::TooFew, Heard::Lies] {
            let call = Call::Open { row, record: self.record(&shared, heard) };
            self.steps.push(Step::trial(call));
        }
        let record = self.record(&shared, Heard::Enough);
        self.step(Call::Open { row, record }, Some(shared.number()));
        Some(())
    }

    fn linear(&mut self) -> Option<()> {
        let (a, b) = (self.pick(mark::HELD)?, self.pick(mark::HELD)?);
        let dest = self.pick(mark::EMPTY)?;
        let (scale, fee) = (self.rng.element(), self.rng.element());
        let sum = self.shared(a).plus_scaled(scale, &self.shared(b)).plus_public(fee);
        self.keep(dest, mark::HELD, sum);
        self.made_from(dest, &[a, b]);
        self.step(Call::Linear { dest, a, b, scale, fee }, None);
        Some(())
    }
}
