//! A station of posts that run every call in step, for the tests.
#![allow(dead_code)]

pub mod program;

use reference::random::{check_points, unwritten, Call, Outcome, Rng, SharedRow, State};
use reference::{Library, Session, Shape, REFERENCE};

/// "n = 3, t = 1, check points 2, 3, 5; f = 7 + 4z; v1 = 1 + 2z, v2 = 3 + z, v3 = 5 + 6z."
pub const HAND_POINTS: [u32; 3] = [2, 3, 5];
pub const HAND_DRAW: [u32; 8] = [7, 4, 1, 2, 3, 1, 5, 6];

/// The row with these hand-reckoned polynomials v, and this f.
pub fn hand_row(f: [u32; 2]) -> SharedRow {
    SharedRow { f: f.to_vec(), v: vec![vec![1, 2], vec![3, 1], vec![5, 6]] }
}

/// What one post sent, `None` for nothing.
pub type Message = Option<Vec<u32>>;

/// The record that these messages fill, an absent block over zeros.
pub fn record(shape: Shape, messages: &[Message]) -> Vec<u32> {
    messages
        .iter()
        .flat_map(|message| match message {
            Some(coefficients) => [&[1], coefficients.as_slice()].concat(),
            None => vec![0; shape.block()],
        })
        .collect()
}

/// Asserts that a call is refused with `number`, has value 0 and changes nothing.
#[track_caller]
pub fn assert_refused(state: &State, call: Call, number: u8) {
    let outcome = call.perform(&REFERENCE, state);
    assert_eq!(outcome.refusal, number, "{call:?}");
    assert_eq!(outcome.value, 0, "{call:?}");
    assert_eq!(outcome.out, unwritten(outcome.out.len()), "{call:?}");
    if !matches!(call, Call::NewSession { .. }) {
        assert!(outcome.state == *state, "{call:?} changed something");
    }
}

/// Asserts that a call is taken, and gives what it did.
#[track_caller]
pub fn assert_taken(state: &State, call: Call) -> Outcome {
    let outcome = call.perform(&REFERENCE, state);
    assert_eq!(outcome.refusal, 0, "{call:?}");
    outcome
}

/// All posts of a session.
pub struct Station {
    pub shape: Shape,
    pub points: Vec<u32>,
    pub posts: Vec<State>,
}

impl Station {
    /// All posts, with as many check points each as there are for them.
    pub fn new(n: usize, t: usize, points: &[u32]) -> Self {
        let k = points.len() / n;
        let shape = Shape::checked(n, t, k).unwrap();
        let start = |(post, points): (usize, &[u32])| {
            let blank = State::new(Session::BLANK, vec![0; shape.all_rows()]);
            let (point, second) = (points[0], points.get(1).copied().unwrap_or(0));
            assert_taken(&blank, Call::NewSession { n, t, post, k, point, second }).state
        };
        let posts = (1..).zip(points.chunks(k)).map(start).collect();
        Self { shape, points: points.to_vec(), posts }
    }

    /// All posts, with random check points.
    pub fn random(rng: &mut Rng, shape: Shape) -> Self {
        let points = check_points(rng, shape);
        Self::new(shape.posts(), shape.threshold(), &points)
    }

    pub fn hand() -> Self {
        Self::new(3, 1, &HAND_POINTS)
    }

    pub fn n(&self) -> usize {
        self.shape.posts()
    }

    pub fn t(&self) -> usize {
        self.shape.threshold()
    }

    /// Makes a call at every post, which must take it.
    #[track_caller]
    pub fn each(&mut self, call: impl Fn(usize) -> Call) -> Vec<Outcome> {
        let mut outcomes = vec![];
        for (index, state) in self.posts.iter_mut().enumerate() {
            let outcome = assert_taken(state, call(index + 1));
            *state = outcome.state.clone();
            outcomes.push(outcome);
        }
        outcomes
    }

    /// Loads a row from the factory at every post.
    pub fn load(&mut self, row: usize, shared: &SharedRow) {
        let mut packs = vec![0; self.shape.row_packs()];
        let (n, t, k) = (self.n(), self.t(), self.shape.points());
        let refusal = REFERENCE.factory_row(n, t, k, &self.points, &shared.draw(), &mut packs);
        assert_eq!(refusal, 0);
        let parts: Vec<_> = packs.chunks(self.shape.row()).map(<[u32]>::to_vec).collect();
        self.each(|post| Call::LoadRow { row, pack: parts[post - 1].clone() });
    }

    /// Loads a triple from the factory at every post.
    pub fn load_triple(&mut self, first: usize, triple: &[SharedRow; 3]) {
        let mut packs = vec![0; 3 * self.shape.row_packs()];
        let draw = SharedRow::triple_draw(triple);
        let (n, t, k) = (self.n(), self.t(), self.shape.points());
        let refusal = REFERENCE.factory_triple(n, t, k, &self.points, &draw, &mut packs);
        assert_eq!(refusal, 0);
        let parts: Vec<_> = packs.chunks(self.shape.row()).map(<[u32]>::to_vec).collect();
        self.each(|post| Call::LoadTriple {
            first,
            pack: [0, n, 2 * n].map(|of| parts[of + post - 1].clone()).concat(),
        });
    }

    /// Loads a row and deals `secret` in it.
    pub fn share(&mut self, row: usize, shared: &SharedRow, secret: u32) {
        self.load(row, shared);
        let (refusal, c) = REFERENCE.dealer_number(secret, shared.f[0]);
        assert_eq!(refusal, 0);
        self.each(|_| Call::Deal { row, c });
    }

    /// Every post's opening message for a row.
    pub fn messages(&mut self, row: usize) -> Vec<Message> {
        let out = self.shape.coefficients();
        let outcomes = self.each(|_| Call::OpeningMessage { row, caller: 1, out });
        outcomes.into_iter().map(|outcome| Some(outcome.out)).collect()
    }

    /// What every post opens with all messages.
    pub fn open(&mut self, row: usize) -> Vec<u32> {
        let messages = self.messages(row);
        let record = record(self.shape, &messages);
        let outcomes = self.each(|_| Call::Open { row, record: record.clone() });
        outcomes.into_iter().map(|outcome| outcome.value).collect()
    }

    /// Every post's two masks.
    pub fn masks(&mut self, a: usize, b: usize, first: usize) -> [Vec<Message>; 2] {
        let out = self.shape.masks();
        let outcomes = self.each(|_| Call::Masks { a, b, first, out });
        let half = self.shape.coefficients();
        let left = outcomes.iter().map(|o| Some(o.out[..half].to_vec()));
        let right = outcomes.iter().map(|o| Some(o.out[half..].to_vec()));
        [left.collect(), right.collect()]
    }

    /// The product of two rows into a triple's third row.
    pub fn multiply(&mut self, a: usize, b: usize, first: usize) {
        let records = self.masks(a, b, first).map(|masks| record(self.shape, &masks));
        self.finish(first, &records);
    }

    /// Both calls of a finish, with these records.
    pub fn finish(&mut self, first: usize, [record, record2]: &[Vec<u32>; 2]) {
        let (record, record2) = (record.clone(), record2.clone());
        self.each(|_| Call::OpenMasks { first, record: record.clone(), record2: record2.clone() });
        self.each(|_| Call::Multiply { first });
    }
}

/// A station as reckoned by hand: row 0 raw; rows 1 and 2 hold 6 and 7; rows 3 to 5 are an unused
/// triple with l = 2 and l' = 5; rows 6 to 8 one whose masks of rows 1 and 2 were sent, rows 80 to 82
/// one whose masks were opened. Row 9 holds 100, the others are empty.
pub fn furnished() -> (Station, [Vec<Message>; 2]) {
    let mut station = Station::hand();
    let triple = [hand_row([2, 9]), hand_row([5, 1]), hand_row([10, 8])];
    station.load(0, &hand_row([7, 4]));
    station.share(1, &hand_row([11, 3]), 6);
    station.share(2, &hand_row([13, 5]), 7);
    station.load_triple(3, &triple);
    station.load_triple(6, &triple);
    let masks = station.masks(1, 2, 6);
    station.load_triple(80, &triple);
    let [left, right] = station.masks(1, 2, 80).map(|masks| record(station.shape, &masks));
    let call = Call::OpenMasks { first: 80, record: left, record2: right };
    station.each(|_| call.clone());
    station.share(9, &hand_row([7, 4]), 100);
    (station, masks)
}
