//! A step at one post, and the lines that it makes.

use reference::{
    deal, linear, load_row, load_triple, masks, multiply, open, open_masks, opening_message,
    place_line, relation_finish, relation_masks, set_callers, turn, write_deal, write_masks,
    write_opening, Answer, Session, Term, NO_ROW,
};

use super::{Station, Step};

/// The first rows of the triples of a relation.
fn firsts(terms: &[Term]) -> impl Iterator<Item = usize> + '_ {
    terms.iter().filter(|term| term.second != NO_ROW).map(|term| term.first)
}

impl<const P: u32> Station<'_, P> {
    /// The step at one post, and the lines that it makes.
    pub(super) fn step_at(&mut self, step: Step, post: usize) -> (Answer, Vec<Vec<u8>>) {
        let s = self.posts[post - 1].session;
        let mut rows = std::mem::take(&mut self.posts[post - 1].rows);
        let outcome = match step {
            Step::Message(row) => self.message(s, &rows, row),
            Step::Masks { a, b, first } => self.masks(s, &rows, (a, b), first),
            Step::RelationMasks(terms) => self.relation_masks(s, &rows, terms),
            Step::Turn => (turn::<P>(s, &mut rows, &mut self.posts[post - 1].dealers), vec![]),
            Step::Place { dealer, row } => {
                let line = self.deal_line(row);
                (self.place_line(s, dealer, &line), vec![])
            }
            Step::PlaceFixed { dealer, line } => {
                (self.place_line(s, dealer, line.as_bytes()), vec![])
            }
            silent => (self.silent_step(s, &mut rows, silent), vec![]),
        };
        self.posts[post - 1].rows = rows;
        outcome
    }

    /// A step that makes no line.
    fn silent_step(&self, s: Session, rows: &mut [u32], step: Step) -> Answer {
        match step {
            Step::LoadRow(into) => self.load_row(s, rows, into, into),
            Step::LoadTriple(into) => self.load_triple(s, rows, into, into),
            Step::Deal(row) => deal::<P>(s, rows, row, self.cs[self.index_of(row)]),
            Step::Callers(line) => set_callers::<P>(s, line.as_bytes()),
            Step::Open(row) => open::<P>(s, rows, row, &self.heard(b'O', row, 0)),
            Step::Linear { dest, a, b, scale, fee } => linear::<P>(s, rows, dest, a, b, scale, fee),
            Step::Finish(first) => self.finish(s, rows, first),
            Step::OpenMasks(first) => self.open_masks(s, rows, first),
            Step::Multiply(first) => multiply::<P>(s, rows, first),
            Step::RelationFinish { terms, dest } => {
                let records: Vec<u32> =
                    firsts(terms).flat_map(|first| self.heard_masks(first).concat()).collect();
                relation_finish::<P>(s, rows, terms, &records, dest)
            }
            broken => self.break_rule(s, rows, broken),
        }
    }

    /// The D line of a row's dealer.
    fn deal_line(&self, row: usize) -> Vec<u8> {
        let mut part = [0; 16];
        let c = self.cs[self.index_of(row)];
        let written = write_deal::<P>(self.plan.n, self.plan.t, row, c, &mut part);
        part[..written.length].to_vec()
    }

    fn place_line(&mut self, s: Session, dealer: usize, line: &[u8]) -> Answer {
        let refusal = place_line(&mut self.posts[s.post - 1].dealers, dealer, line);
        Answer { refusal, value: 0, session: s }
    }

    fn message(&self, s: Session, rows: &[u32], row: usize) -> (Answer, Vec<Vec<u8>>) {
        let mut out = vec![0; self.shape.coefficients()];
        let answer = opening_message::<P>(s, rows, row, 1, &mut out);
        (answer, vec![self.line(s.post, row, &out)])
    }

    fn masks(
        &self,
        s: Session,
        rows: &[u32],
        (a, b): (usize, usize),
        first: usize,
    ) -> (Answer, Vec<Vec<u8>>) {
        let mut out = vec![0; self.shape.masks()];
        let answer = masks::<P>(s, rows, a, b, first, &mut out);
        (answer, vec![self.line(s.post, first, &out)])
    }

    /// The masks of a relation, and a line for each product term.
    fn relation_masks(&self, s: Session, rows: &[u32], terms: &[Term]) -> (Answer, Vec<Vec<u8>>) {
        let mut out = vec![0; firsts(terms).count() * self.shape.masks()];
        let answer = relation_masks::<P>(s, rows, terms, &mut out);
        let parts = firsts(terms).zip(out.chunks(self.shape.masks()));
        (answer, parts.map(|(first, masks)| self.line(s.post, first, masks)).collect())
    }

    /// Loads the pack drawn for row `of`.
    pub(super) fn load_row(&self, s: Session, rows: &mut [u32], of: usize, into: usize) -> Answer {
        load_row::<P>(s, rows, into, &self.row_pack(self.index_of(of), s.post))
    }

    /// Loads the triple drawn for row `of`.
    pub(super) fn load_triple(
        &self,
        s: Session,
        rows: &mut [u32],
        of: usize,
        into: usize,
    ) -> Answer {
        let triple = self.plan.triples.iter().position(|&drawn| drawn == of);
        let pack = self.triple_pack(triple.expect("the triple is drawn"), s.post);
        load_triple::<P>(s, rows, into, &pack)
    }

    /// The records of a triple's two masks.
    pub(super) fn heard_masks(&self, first: usize) -> [Vec<u32>; 2] {
        [0, 1].map(|part| self.heard(b'M', first, part))
    }

    /// Both calls of a finish, with what was heard of a triple's masks.
    pub(super) fn finish(&self, s: Session, rows: &mut [u32], first: usize) -> Answer {
        let opened = self.open_masks(s, rows, first);
        if opened.refusal == 0 {
            multiply::<P>(opened.session, rows, first)
        } else {
            opened
        }
    }

    fn open_masks(&self, s: Session, rows: &[u32], first: usize) -> Answer {
        let [left, right] = self.heard_masks(first);
        open_masks::<P>(s, rows, first, &left, &right)
    }

    /// The line of a message, or of masks when there are twice as many numbers.
    pub(super) fn line(&self, post: usize, row: usize, numbers: &[u32]) -> Vec<u8> {
        let (n, t, k) = (self.plan.n, self.plan.t, self.plan.k);
        let mut part = [0; 64];
        let written = if numbers.len() == self.shape.coefficients() {
            write_opening::<P>(n, t, k, row, post, numbers, &mut part)
        } else {
            write_masks::<P>(n, t, k, row, post, numbers, &mut part)
        };
        assert_eq!(written.refusal, 0, "a message is written");
        part[..written.length].to_vec()
    }
}
