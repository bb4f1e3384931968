//! "The plain book": "fed the calls with the row numbers and fixed elements they name, the secrets and,
//! of the answers, only which calls are refused. It sees no session, no message and no row's numbers."

use reference::{Element, DEALERS, NO_ROW, ROWS};

use crate::record::{Plan, Step};

/// "A place for each of the 96 rows and two for each triple, all blank at first."
pub struct Book<'a, const P: u32> {
    plan: &'a Plan,
    secrets: &'a [u32],
    rows: [Option<Element<P>>; ROWS],
    factors: [Option<(Element<P>, Element<P>)>; ROWS],
    /// The last dealer, and the row that each dealer's waiting line deals; `None` in it for a line that
    /// deals none.
    last: usize,
    waiting: [Option<Option<usize>>; DEALERS],
    /// The number of each opening message's row.
    opened: Vec<Option<Element<P>>>,
}

/// The numbers opened, and the one in row `row` after the last call.
pub fn numbers<const P: u32>(
    plan: &Plan,
    refused: &[bool],
    secrets: &[u32],
    row: usize,
) -> (Vec<Option<u32>>, Option<u32>) {
    let mut book = Book::<P> {
        plan,
        secrets,
        rows: [None; ROWS],
        factors: [None; ROWS],
        last: DEALERS,
        waiting: [None; DEALERS],
        opened: vec![],
    };
    for (&step, &refused) in plan.steps.iter().zip(refused) {
        book.call(step, refused);
    }
    let value = |number: Option<Element<P>>| number.map(Element::value);
    (book.opened.into_iter().map(value).collect(), value(book.rows[row]))
}

impl<const P: u32> Book<'_, P> {
    fn call(&mut self, step: Step, refused: bool) {
        match step {
            Step::Turn => self.turn(refused),
            _ if refused => {}
            Step::Place { dealer, row } => self.waiting[dealer - 1] = Some(Some(row)),
            Step::PlaceFixed { dealer, .. } => self.waiting[dealer - 1] = Some(None),
            Step::Deal(row) => self.deal(row),
            Step::Message(row) => self.opened.push(self.rows[row]),
            Step::Linear { dest, a, b, scale, fee } => {
                let sum = self.number(a) + Element::from(scale) * self.number(b) + fee.into();
                self.rows[dest] = Some(sum);
            }
            Step::Masks { a, b, first } => self.masks(a, b, first),
            Step::Multiply(first) | Step::Finish(first) => self.product(first),
            Step::RelationMasks(terms) => {
                for term in terms.iter().filter(|term| term.second != NO_ROW) {
                    self.masks(term.row, term.second, term.first);
                }
            }
            Step::RelationFinish { terms, dest } => {
                let mut sum = Element::ZERO;
                for term in terms {
                    let mut row = term.row;
                    if term.second != NO_ROW {
                        self.product(term.first);
                        row = term.first + 2;
                    }
                    sum = sum + Element::from(term.coefficient) * self.number(row);
                }
                self.rows[dest] = Some(sum);
            }
            _ => {}
        }
    }

    fn number(&self, row: usize) -> Element<P> {
        self.rows[row].expect("a held row has a number")
    }

    /// "Deal puts u in its row's place."
    fn deal(&mut self, row: usize) {
        let raw =
            self.plan.raw.iter().position(|raw| raw.row == row).expect("the row is drawn raw");
        self.rows[row] = Some(self.secrets[raw].into());
    }

    /// "Which in 01's plain book is a deal of the line's row."
    fn turn(&mut self, refused: bool) {
        let mut round = (0..DEALERS).map(|step| (self.last + step) % DEALERS);
        let Some(place) = round.find(|&place| self.waiting[place].is_some()) else {
            return;
        };
        self.last = place + 1;
        let row = self.waiting[place].take().flatten();
        row.filter(|_| !refused).into_iter().for_each(|row| self.deal(row));
    }

    fn masks(&mut self, a: usize, b: usize, first: usize) {
        self.factors[first] = Some((self.number(a), self.number(b)));
    }

    /// "When its product is written, the third row gets one times the other."
    fn product(&mut self, first: usize) {
        let (a, b) = self.factors[first].expect("masks were sent");
        self.rows[first + 2] = Some(a * b);
    }
}
