//! A random session of one post, as a list of steps.

mod calls;
mod dealers;
mod products;
mod record;

use super::damage::damaged;
use super::{check_points, Call, Damage, Outcome, Rng, SharedRow, State};
use crate::{mark, Library, Session, Shape, DEALERS_STATE, ROWS};
use dealers::Dealers;

/// One call of a script.
#[derive(Clone, Debug, PartialEq, Eq)]
pub struct Step {
    /// A trial is made on a copy of session, rows and dealers: whatever it does is seen and then
    /// forgotten. Every other step is valid, and is not refused unless `refusal` says so.
    pub trial: bool,
    /// What is made wrong with the copy before a trial.
    pub damage: Vec<Damage>,
    /// The call.
    pub call: Call,
    /// The number that an honest opening gives.
    pub opens_to: Option<u32>,
    /// The refusal of a step that is no trial: not 0 only for a turn whose line is refused once taken.
    pub refusal: u8,
}

impl Step {
    /// A trial without damage.
    fn trial(call: Call) -> Self {
        Self { trial: true, damage: vec![], call, opens_to: None, refusal: 0 }
    }

    /// The copy that a trial is made on.
    pub fn damaged(&self, state: &State) -> State {
        let mut copy = state.clone();
        self.damage.iter().for_each(|damage| damage.apply(&mut copy));
        copy
    }
}

/// A session from its start.
#[derive(Clone, Debug)]
pub struct Script {
    /// The numbers that stand in the row list at first.
    pub rows: Vec<u32>,
    /// The bytes that stand in the dealers' state at first.
    pub dealers: Vec<u8>,
    /// The calls, in order.
    pub steps: Vec<Step>,
    /// What stands in the rows that were written, after the last step.
    pub written: Vec<(usize, Vec<u32>)>,
    /// The marks after the last step.
    pub marks: [u8; ROWS],
    /// The numbers that the session remembers for each row, after the last step.
    pub opened: [[u32; 2]; ROWS],
    /// The posts that may call for the opening of each row, after the last step.
    pub callers: Vec<Vec<usize>>,
    /// The dealers' state after the last step.
    pub dealers_after: Vec<u8>,
}

impl Script {
    /// What the post keeps before the first step.
    pub fn state(&self) -> State {
        let (rows, dealers) = (self.rows.clone(), self.dealers.clone());
        State { session: Session::BLANK, rows, dealers }
    }

    /// What `library` answers, step by step.
    pub fn replay<'a, L: Library>(&'a self, library: &'a L) -> impl Iterator<Item = Outcome> + 'a {
        let mut state = self.state();
        self.steps.iter().map(move |step| {
            let outcome = match step.damage.is_empty() {
                true => step.call.perform(library, &state),
                false => step.call.perform(library, &step.damaged(&state)),
            };
            if !step.trial {
                state = outcome.state.clone();
            }
            outcome
        })
    }
}

/// The script of `seed`: about `length` valid calls, and as many trials.
pub fn script(seed: u64, length: usize) -> Script {
    let mut rng = Rng::new(seed);
    let shape = super::shape(&mut rng);
    script_for(&mut rng, shape, length)
}

/// A script for these numbers of posts and check points.
pub fn script_for(rng: &mut Rng, shape: Shape, length: usize) -> Script {
    let points = check_points(rng, shape);
    let author = Author {
        post: rng.between(1, shape.posts()),
        points,
        shape,
        marks: [mark::EMPTY; ROWS],
        shared: vec![None; ROWS],
        factors: [(0, 0); ROWS],
        opened: [[0; 2]; ROWS],
        callers: vec![(1..=shape.posts()).collect(); ROWS],
        dealers: Dealers::new(),
        steps: vec![],
        rng,
    };
    author.script(length)
}

/// Writes a script, with the plain polynomials of every row in mind.
struct Author<'r> {
    rng: &'r mut Rng,
    shape: Shape,
    points: Vec<u32>,
    post: usize,
    marks: [u8; ROWS],
    shared: Vec<Option<SharedRow>>,
    factors: [(usize, usize); ROWS],
    opened: [[u32; 2]; ROWS],
    callers: Vec<Vec<usize>>,
    dealers: Dealers,
    steps: Vec<Step>,
}

impl Author<'_> {
    fn script(mut self, length: usize) -> Script {
        self.start();
        for _ in 0..length {
            self.act();
        }
        self.finished()
    }

    /// The own check points.
    fn points(&self) -> &[u32] {
        self.shape.points_of(&self.points, self.post)
    }

    fn start(&mut self) {
        let (n, t, k) = (self.shape.posts(), self.shape.threshold(), self.shape.points());
        let (point, other) = (self.points()[0], self.rng.number());
        // With one point the second isn't looked at.
        let second = self.points().get(1).copied().unwrap_or(other);
        self.step(Call::NewSession { n, t, post: self.post, k, point, second }, None);
        self.step(Call::NewDealers, None);
    }

    fn finished(self) -> Script {
        let rows = (0..self.shape.all_rows()).map(|_| self.rng.number()).collect();
        let dealers = (0..DEALERS_STATE).map(|_| self.rng.below(256) as u8).collect();
        let written = self.shared.iter().enumerate();
        let written = written
            .filter_map(|(row, shared)| Some((row, self.own_part(shared.as_ref()?))))
            .collect();
        let dealers_after = self.dealers.state();
        let Self { steps, marks, opened, callers, .. } = self;
        Script { rows, dealers, steps, written, marks, opened, callers, dealers_after }
    }

    /// The own part of a shared number.
    fn own_part(&self, shared: &SharedRow) -> Vec<u32> {
        shared.row_of(self.post, self.points())
    }

    /// A valid call, with trials of it before and after.
    fn step(&mut self, call: Call, opens_to: Option<u32>) {
        for _ in 0..self.rng.below(3) {
            self.trial(&call);
        }
        let repeat = self.rng.one_in(4).then(|| call.clone());
        self.steps.push(Step { trial: false, opens_to, ..Step::trial(call) });
        self.steps.extend(repeat.map(Step::trial));
    }

    fn trial(&mut self, call: &Call) {
        let mut call = call.clone();
        let mut damage = vec![];
        for _ in 0..self.rng.between(1, 2) {
            if self.rng.one_in(2) {
                call = damaged(self.rng, &call);
            } else {
                damage.push(self.damage_about(&call));
            }
        }
        self.steps.push(Step { damage, ..Step::trial(call) });
    }

    /// Damage that concerns a call.
    fn damage_about(&mut self, call: &Call) -> Damage {
        Damage::random(self.rng, self.shape, call)
    }

    /// "A row made from others has the posts that all of them share."
    fn made_from(&mut self, row: usize, others: &[usize]) {
        let shared = |post: &usize| others.iter().all(|&other| self.callers[other].contains(post));
        self.callers[row] = (1..=self.shape.posts()).filter(shared).collect();
    }

    /// The rows with `mark`.
    fn marked(&self, mark: u8) -> Vec<usize> {
        (0..ROWS).filter(|&row| self.marks[row] == mark).collect()
    }

    fn pick(&mut self, mark: u8) -> Option<usize> {
        let rows = self.marked(mark);
        self.rng.pick_any(&rows)
    }

    fn shared(&self, row: usize) -> SharedRow {
        self.shared[row].clone().expect("a marked row was written")
    }

    fn keep(&mut self, row: usize, mark: u8, shared: SharedRow) {
        self.marks[row] = mark;
        self.shared[row] = Some(shared);
    }
}
