//! Random inputs of the street program.

mod book;
mod bursts;
mod lines;

use super::{check_points, mutate, Rng, SharedRow};
use crate::{mark, Shape, ROWS, TRIPLE};
use book::Book;

/// The input of `seed`: about `length` lines, some of them harmed.
pub fn street_input(seed: u64, length: usize) -> Vec<u8> {
    let mut rng = Rng::new(seed);
    let shape = super::street_shape(&mut rng);
    let points = check_points(&mut rng, shape);
    let mut clerk = Clerk {
        shape,
        post: rng.between(1, shape.posts()),
        points,
        rows: (0..rng.between(2, 4)).map(|_| rng.below(ROWS)).collect(),
        firsts: (0..rng.between(1, 2)).map(|_| rng.below(ROWS - TRIPLE + 1)).collect(),
        book: Book::default(),
        rng,
    };
    clerk.input(length)
}

/// Writes lines of one session with few rows, so that they meet.
struct Clerk {
    rng: Rng,
    shape: Shape,
    post: usize,
    points: Vec<u32>,
    /// Rows for `R` and `L`.
    rows: Vec<usize>,
    /// First rows for `T`.
    firsts: Vec<usize>,
    /// What the program has taken, as far as the clerk can tell.
    book: Book,
}

impl Clerk {
    fn input(&mut self, length: usize) -> Vec<u8> {
        let mut lines: Vec<Vec<u8>> = vec![];
        while self.rng.one_in(3) {
            let odd_start = self.rng.one_in(3);
            lines.push(if odd_start { self.odd_start() } else { self.harmed(Self::any_line) });
        }
        if !self.rng.one_in(10) {
            lines.push(self.start());
        }
        if self.rng.one_in(2) {
            lines.extend(self.furnish());
        }
        while lines.len() < length {
            match self.rng.below(30) {
                0 => lines.extend(self.product()),
                1 => lines.extend(self.opening_burst()),
                2..7 => lines.push(self.harmed(Self::any_line)),
                _ => lines.push(self.any_line()),
            }
        }
        let mut input = lines.concat();
        if self.rng.one_in(4) {
            input.truncate(input.len().saturating_sub(self.rng.between(1, 4)));
        }
        input
    }

    /// A line with something changed: what it would have done is forgotten.
    fn harmed(&mut self, line: impl FnOnce(&mut Self) -> Vec<u8>) -> Vec<u8> {
        let before = self.book.clone();
        let line = line(self);
        self.book = before;
        mutate(&mut self.rng, &line)
    }

    fn any_line(&mut self) -> Vec<u8> {
        match self.rng.below(40) {
            0 => self.start(),
            1 => self.odd_start(),
            2 => self.overlong(),
            3 => self.rng.pick(&[b"" as &[u8], b"\n", b"S\n", b"\r\n", b"G\n", b"F\n"]).to_vec(),
            4 => self.other_letter(),
            5 => self.longest_line(),
            6 => self.set_callers(),
            7..=10 => self.raw_row(),
            11..=14 => self.deal(),
            15..=22 => self.opening(),
            23..=26 => self.get(),
            27..=29 => self.triple(),
            30..=31 => self.linear(),
            32..=34 => self.make_masks(),
            35..=37 => self.mask_line(),
            _ => self.finish(),
        }
    }

    /// The own check points.
    fn points(&self) -> &[u32] {
        self.shape.points_of(&self.points, self.post)
    }

    /// The own part of a shared number.
    fn own_part(&self, shared: &SharedRow) -> Vec<u32> {
        shared.row_of(self.post, self.points())
    }

    /// A row of the session, its triples included; now and then any row.
    fn some_row(&mut self) -> usize {
        match self.rng.below(8) {
            0 => self.rng.below(ROWS),
            1 | 2 => self.some_first() + self.rng.below(TRIPLE),
            _ => self.rng.pick(&self.rows),
        }
    }

    /// A held row where there is one.
    fn some_held_row(&mut self) -> usize {
        self.some_row_with(mark::HELD)
    }

    /// A row with this mark where there is one.
    fn some_row_with(&mut self, mark: u8) -> usize {
        let marked = self.book.marked(mark);
        match self.rng.pick_any(&marked) {
            Some(row) if !self.rng.one_in(8) => row,
            _ => self.some_row(),
        }
    }

    fn some_first(&mut self) -> usize {
        self.rng.pick(&self.firsts)
    }
}
