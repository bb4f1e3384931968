//! Steps that break a rule on purpose.

use reference::{linear, mark, open, Answer, Barred, Element, Session, ROWS};

use super::{Station, Step};

/// The session with another mark of a row.
fn overwrite(mut session: Session, row: usize, mark: u8) -> Answer {
    session.marks[row] = mark;
    Answer { refusal: 0, value: 0, session }
}

/// The session with another number y of a triple.
fn remember(mut session: Session, first: usize, y: u32) -> Answer {
    session.y[first] = y;
    Answer { refusal: 0, value: 0, session }
}

/// The session in which nobody is barred from a row.
fn unbar(mut session: Session, row: usize) -> Answer {
    session.barred[row] = Barred::NOBODY;
    Answer { refusal: 0, value: 0, session }
}

/// The number of a factor row less a row of the triple, opened with its record: on copies in which
/// both are held, and the last row is empty.
fn masked_number<const P: u32>(
    mut s: Session,
    rows: &[u32],
    factor: usize,
    row: usize,
    record: &[u32],
) -> Element<P> {
    const LAST: usize = ROWS - 1;
    s.marks = [mark::HELD; ROWS];
    s.marks[LAST] = mark::EMPTY;
    let mut rows = rows.to_vec();
    let masked = linear::<P>(s, &mut rows, LAST, factor, row, P - 1, 0).session;
    let opened = open::<P>(masked, &rows, LAST, record);
    assert_eq!(opened.refusal, 0, "the finish was accepted");
    opened.value.into()
}

impl<const P: u32> Station<'_, P> {
    /// A step that breaks a rule.
    pub(super) fn break_rule(&self, s: Session, rows: &mut [u32], step: Step) -> Answer {
        match step {
            Step::Overwrite { row, mark } => overwrite(s, row, mark),
            Step::Remember { first, y } => remember(s, first, y),
            Step::Unbar(row) => unbar(s, row),
            Step::LoadAgain { of, into } => self.load_row(s, rows, of, into),
            Step::LoadTripleAgain { of, into } => self.load_triple(s, rows, of, into),
            Step::FinishWithConstant(first) => self.finish_with_constant(s, rows, first),
            Step::OpenForged { row, forged } => {
                let mut record = self.heard(b'O', row, 0);
                for &(post, message) in forged {
                    self.put(&mut record, post, &message);
                }
                open::<P>(s, rows, row, &record)
            }
            Step::FeeWithConstant { dest, a, fee } => {
                let answer = linear::<P>(s, rows, dest, a, a, 0, fee);
                self.add_to_constant(rows, dest, fee.into());
                answer
            }
            kept => unreachable!("{kept:?} keeps the rules"),
        }
    }

    fn finish_with_constant(&self, s: Session, rows: &mut [u32], first: usize) -> Answer {
        let answer = self.finish(s, rows, first);
        if answer.refusal == 0 {
            let [left, right] = self.heard_masks(first);
            let y = masked_number::<P>(s, rows, s.left[first].into(), first, &left);
            let y2 = masked_number::<P>(s, rows, s.right[first].into(), first + 1, &right);
            self.add_to_constant(rows, first + 2, y * y2);
        }
        answer
    }

    /// Adds a number to the polynomial of a row, and so to the check values.
    fn add_to_constant(&self, rows: &mut [u32], row: usize, number: Element<P>) {
        let row = &mut rows[self.shape.at(row)];
        for place in self.shape.check_values().chain([self.shape.polynomial().start]) {
            row[place] = (Element::<P>::from(row[place]) + number).value();
        }
    }
}
