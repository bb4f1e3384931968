//! The last phase of a session, about one row: "the group of at most t posts may now broadcast
//! polynomials of its own, chosen from its record alone, or stay silent".

use reference::polynomial::evaluate;
use reference::{mark, open, opening_message, Element};

use super::Station;

/// All that the group has seen when one of its posts chooses what to send.
pub struct View<'a> {
    /// The group's record up to now, this phase's lines and answers included.
    pub record: &'a [u8],
    /// The coefficients in the member's own row: what the rules would have it send.
    pub own: &'a [u32],
    /// The senders and polynomials of this phase, those of the group included.
    pub said: &'a [(usize, Vec<u32>)],
}

/// A choice that follows from what was seen; `None` is silence.
pub type Choose = fn(&View) -> Option<Vec<u32>>;

/// An opening message, a lie, or an opening.
#[derive(Clone, Copy)]
pub enum Event {
    /// A post outside the group is called for its opening message, and broadcasts it.
    Called { post: usize, by: usize },
    /// A post of the group broadcasts what it chooses.
    Says { post: usize, what: Choose },
    /// A post opens with a record of lines broadcast in this phase: each the sender's first, second
    /// and so on, absent where there is none.
    Opens { post: usize, with: &'static [(usize, usize)] },
}

/// What happens to one row last.
#[derive(Clone)]
pub struct Last {
    pub row: usize,
    pub events: Vec<Event>,
}

impl<const P: u32> Station<'_, P> {
    /// The last phase; its acceptances follow the record at the end, unseen by the group.
    pub(super) fn last_phase(&mut self, last: &Last) {
        self.said.clear();
        self.accepted.clear();
        self.opened.clear();
        for &event in &last.events {
            match event {
                Event::Called { post, by } => self.called(last.row, post, by),
                Event::Says { post, what } => self.says(last.row, post, what),
                Event::Opens { post, with } => self.opens(last.row, post, with),
            }
        }
        self.record.extend(&self.accepted);
    }

    /// The refusals of the steps before the last phase, of each step at all posts.
    pub fn refusals(&self) -> &[u8] {
        &self.refusals
    }

    /// The refusals of the last phase's openings, and its acceptances.
    pub fn met(&self) -> (&[u8], &[u8]) {
        (&self.opened, &self.accepted)
    }

    fn called(&mut self, row: usize, post: usize, by: usize) {
        assert!(!self.group.contains(&post), "the group is called by nobody");
        let mut out = vec![0; self.shape.coefficients()];
        let state = &self.posts[post - 1];
        let answer = opening_message::<P>(state.session, &state.rows, row, by, &mut out);
        self.record.push(answer.refusal);
        if answer.refusal == 0 {
            self.said(row, post, out);
        }
    }

    fn says(&mut self, row: usize, post: usize, what: Choose) {
        assert!(self.group.contains(&post), "others keep the rules");
        let own = &self.posts[post - 1].rows[self.shape.at(row)][self.shape.polynomial()];
        match what(&View { record: &self.record, own, said: &self.said }) {
            Some(polynomial) => self.said(row, post, polynomial),
            None => self.record.push(b'-'),
        }
    }

    /// A line is broadcast, and each post outside the group accepts its polynomial or doesn't.
    fn said(&mut self, row: usize, post: usize, polynomial: Vec<u32>) {
        self.record.extend(self.line(post, row, &polynomial));
        for other in (1..=self.plan.n).filter(|other| !self.group.contains(other)) {
            self.accepted.push(self.accepts(row, other, post, &polynomial));
        }
        self.said.push((post, polynomial));
    }

    /// Whether a post accepts a sender's polynomial for a row: 1 or 0; 2 where the row isn't held.
    fn accepts(&self, row: usize, post: usize, sender: usize, polynomial: &[u32]) -> u8 {
        let state = &self.posts[post - 1];
        if state.session.marks[row] != mark::HELD {
            return 2;
        }
        let k = self.plan.k;
        let checks = &state.rows[self.shape.at(row)][self.shape.check_values()];
        let checks = &checks[(sender - 1) * k..][..k];
        let points = [state.session.point, state.session.second];
        let matches = |(&point, &check): (&u32, &u32)| {
            evaluate::<P>(polynomial, point.into()) == Element::from(check)
        };
        points.iter().zip(checks).all(matches).into()
    }

    fn opens(&mut self, row: usize, post: usize, with: &[(usize, usize)]) {
        let mut record = vec![0; self.shape.record()];
        for &(sender, which) in with {
            let mut lines = self.said.iter().filter(|(said_by, _)| *said_by == sender);
            if let Some((_, polynomial)) = lines.nth(which) {
                self.put(&mut record, sender, polynomial);
            }
        }
        let state = &self.posts[post - 1];
        let answer = open::<P>(state.session, &state.rows, row, &record);
        self.opened.push(answer.refusal);
        self.record.push(answer.refusal);
        self.note_numbers(&[answer.value]);
    }
}
