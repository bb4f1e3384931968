//! One run of a plan at all posts, and the record that a group has of it.

mod broken;
mod calls;
mod notes;
mod phase;
mod plan;

use reference::{factory_row, factory_triple, new_dealers, new_session, read, Session, Shape};
use reference::{DEALERS_STATE, TRIPLE};

use crate::draws::Draw;
pub use phase::{Event, Last, View};
pub use plan::{Plan, Raw, Step};

/// A message broadcast, as read from its line.
struct Sent {
    letter: u8,
    row: usize,
    post: usize,
    numbers: Vec<u32>,
}

struct Post {
    session: Session,
    rows: Vec<u32>,
    /// The rows when the record was last written.
    seen: Vec<u32>,
    /// "It starts new and is handed on like the rows."
    dealers: [u8; DEALERS_STATE],
}

/// A station that runs a plan over and over, with other draws and secrets.
pub struct Station<'a, const P: u32> {
    plan: &'a Plan,
    group: &'a [usize],
    shape: Shape,
    posts: Vec<Post>,
    /// "Any fixed numbers in the row list": some of these are no elements.
    fixed: Vec<u32>,
    /// Each raw row's packs, of all posts.
    row_packs: Vec<Vec<u32>>,
    /// Each triple's packs, of all posts.
    triple_packs: Vec<Vec<u32>>,
    /// Each raw row's number c.
    cs: Vec<u32>,
    sent: Vec<Sent>,
    /// The senders and polynomials of the last phase.
    said: Vec<(usize, Vec<u32>)>,
    /// Which posts outside the group accept them.
    accepted: Vec<u8>,
    /// The refusals of the last phase's openings.
    opened: Vec<u8>,
    /// The refusals of the steps before, of each step at all posts.
    refusals: Vec<u8>,
    record: Vec<u8>,
}

impl<'a, const P: u32> Station<'a, P> {
    /// The station of a plan, whose record is that of `group`.
    pub fn new(plan: &'a Plan, group: &'a [usize]) -> Self {
        let shape = Shape::checked(plan.n, plan.t, plan.k).unwrap();
        let post = || Post {
            session: Session::BLANK,
            rows: vec![0; shape.all_rows()],
            seen: vec![0; shape.all_rows()],
            dealers: [0; DEALERS_STATE],
        };
        Self {
            plan,
            group,
            shape,
            posts: (0..plan.n).map(|_| post()).collect(),
            fixed: (0..shape.all_rows()).map(|place| place as u32 & 127).collect(),
            row_packs: vec![vec![0; shape.row_packs()]; plan.raw.len()],
            triple_packs: vec![vec![0; TRIPLE * shape.row_packs()]; plan.triples.len()],
            cs: vec![],
            sent: vec![],
            said: vec![],
            accepted: vec![],
            opened: vec![],
            refusals: vec![],
            record: vec![],
        }
    }

    /// The group's record when the plan is run with this draw and these secrets, one for each raw
    /// row; after a last phase, the acceptances at the other posts too.
    pub fn record(&mut self, draw: &Draw, secrets: &[u32]) -> &[u8] {
        self.start(draw);
        self.note_packs(draw.points);
        self.note_deals(draw, secrets);
        for &step in &self.plan.steps {
            self.step(step);
        }
        if let Some(last) = &self.plan.last {
            self.last_phase(last);
        }
        &self.record
    }

    /// New sessions, and the packs of the draw.
    fn start(&mut self, draw: &Draw) {
        self.cs.clear();
        self.sent.clear();
        self.refusals.clear();
        self.record.clear();
        self.start_posts(draw.points);
        self.make_packs(draw);
    }

    fn start_posts(&mut self, points: &[u32]) {
        let Plan { n, t, k, .. } = *self.plan;
        for ((post, number), points) in self.posts.iter_mut().zip(1..).zip(points.chunks(k)) {
            post.session = new_session::<P>(n, t, number, k, points[0], points[k - 1]).session;
            post.rows.copy_from_slice(&self.fixed);
            assert_eq!(new_dealers(&mut post.dealers), 0);
            if self.group.contains(&number) {
                post.seen.copy_from_slice(&self.fixed);
            }
        }
    }

    fn make_packs(&mut self, draw: &Draw) {
        let Plan { n, t, k, .. } = *self.plan;
        for (out, numbers) in self.row_packs.iter_mut().zip(&draw.rows) {
            let refusal = factory_row::<P>(n, t, k, draw.points, numbers, out);
            assert_eq!(refusal, 0, "the draw is complete");
        }
        for (out, numbers) in self.triple_packs.iter_mut().zip(&draw.triples) {
            let refusal = factory_triple::<P>(n, t, k, draw.points, numbers, out);
            assert_eq!(refusal, 0, "the draw is complete");
        }
    }

    /// Which of the raw rows drawn stands for row `row`.
    fn index_of(&self, row: usize) -> usize {
        let raw = self.plan.raw.iter().position(|raw| raw.row == row);
        raw.expect("the row is drawn raw")
    }

    fn row_pack(&self, raw: usize, post: usize) -> Vec<u32> {
        let row = self.shape.row();
        self.row_packs[raw][(post - 1) * row..][..row].to_vec()
    }

    fn triple_pack(&self, triple: usize, post: usize) -> Vec<u32> {
        let row = self.shape.row();
        let of_all = self.triple_packs[triple].chunks(self.shape.row_packs());
        of_all.flat_map(|rows| rows[(post - 1) * row..][..row].to_vec()).collect()
    }

    /// One step at all posts; then what they broadcast is read.
    fn step(&mut self, step: Step) {
        let mut lines = vec![];
        for post in 1..=self.plan.n {
            let (answer, made) = self.step_at(step, post);
            self.posts[post - 1].session = answer.session;
            self.refusals.push(answer.refusal);
            self.record.push(answer.refusal);
            self.note_numbers(&[answer.value]);
            self.note_dealers(step, post);
            if self.group.contains(&post) {
                self.note_rows(post);
            }
            if answer.refusal == 0 {
                lines.extend(made);
            }
        }
        for line in lines {
            self.broadcast(&line);
        }
    }

    /// "Every broadcast line."
    fn broadcast(&mut self, line: &[u8]) {
        self.record.extend(line);
        let mut numbers = vec![0; self.shape.masks()];
        let read = read::<P>(self.plan.n, self.plan.t, self.plan.k, line, &mut numbers);
        assert_eq!(read.refusal, 0, "what a post broadcasts is read");
        let (letter, row, post) = (read.letter, read.row, read.post);
        self.sent.push(Sent { letter, row, post, numbers });
    }

    /// The record of an opening, filled from what was broadcast.
    fn heard(&self, letter: u8, row: usize, part: usize) -> Vec<u32> {
        let mut record = vec![0; self.shape.record()];
        for sent in self.sent.iter().filter(|sent| (sent.letter, sent.row) == (letter, row)) {
            let half = self.shape.coefficients();
            self.put(&mut record, sent.post, &sent.numbers[part * half..][..half]);
        }
        record
    }

    /// Fills a block of a record.
    fn put(&self, record: &mut [u32], post: usize, message: &[u32]) {
        let block = &mut record[(post - 1) * self.shape.block()..][..self.shape.block()];
        block[0] = 1;
        block[1..].copy_from_slice(message);
    }
}
