//! Several dealers at one station: a place for one waiting line each, and turns that go round.

use core::fmt;

use crate::{sys, Answer, Refusal, Session, DEALERS, DEALERS_LEN, DEAL_LINE_LEN};

/// The dealers' state, which a post keeps and hands on like its rows: the last dealer served, then for
/// each of the dealers 1 to 8 a place, which is a length, 0 when it is free, and 16 bytes.
///
/// The bytes may be anything: each call checks them. While only [`place`](Self::place) and
/// [`Session::turn`] write them, a waiting line is taken within eight turns that are counted, however
/// often other dealers send. Every post must be given the same lines and turns in the same order.
///
/// ```
/// # use gantsorol::{rows_len, Dealers, Refusal, Session};
/// # let (mut session, mut rows) = (Session::new(3, 1, 1, &[2]).accepted()?.0, [0; rows_len(3, 1, 1)]);
/// for row in [0, 1] {
///     session.take().load_row(&mut rows, row, &[1, 2, 5, 5, 17, 12, 18, 24]).keep(&mut session)?;
/// }
/// let mut dealers = Dealers::new();
/// dealers.place(5, b"D,0,93\n")?;
/// dealers.place(2, b"D,0,7\n")?;
/// assert_eq!(dealers.place(2, b"D,1,7\n"), Err(Refusal::PlaceFilled));
///
/// // Dealer 2 comes first, then dealer 5, whose row is dealt by then: its place is free again.
/// session.take().turn(&mut rows, &mut dealers).keep(&mut session)?;
/// let late = session.take().turn(&mut rows, &mut dealers).keep(&mut session);
/// assert_eq!((late, dealers.last(), dealers.waiting(5)), (Err(Refusal::WrongMark), 5, None));
///
/// // No line waits: nothing changes.
/// session.take().turn(&mut rows, &mut dealers).keep(&mut session)?;
/// # Ok::<(), Refusal>(())
/// ```
#[repr(transparent)]
#[derive(Clone, PartialEq, Eq)]
pub struct Dealers(pub [u8; DEALERS_LEN]);

impl Dealers {
    /// A new state: dealer 8 was the last one served, and no line waits.
    pub fn new() -> Self {
        let mut state = [0; DEALERS_LEN];
        // SAFETY: the list is a borrowed array's pointer and length.
        let refusal = unsafe { sys::gantsorol_new_state(state.as_mut_ptr(), state.len()) };
        debug_assert_eq!(refusal, 0, "the list has the state's length");
        Self(state)
    }

    /// Puts a dealer's line, 1 to [`DEAL_LINE_LEN`] bytes, into its place, where it waits for a turn. It
    /// is not read: what is no `D` line is refused by the turn that takes it. Bytes behind a shorter line
    /// stay as they are. Refusals 16, 17, 10, in this order.
    #[inline]
    pub fn place(&mut self, dealer: usize, line: &[u8]) -> Result<(), Refusal> {
        let state = &mut self.0;
        // SAFETY: each list is a borrowed pointer and length, and `state` overlaps no other.
        let refusal = unsafe {
            sys::gantsorol_place(state.as_mut_ptr(), state.len(), dealer, line.as_ptr(), line.len())
        };
        Refusal::check(refusal)
    }

    /// The last dealer served.
    pub const fn last(&self) -> usize {
        self.0[0] as usize
    }

    /// The line that waits in a dealer's place; none where the place is free, where it says that it has
    /// more than 16 bytes, and for a dealer outside 1 to 8.
    pub fn waiting(&self, dealer: usize) -> Option<&[u8]> {
        let place = self.0[1..].chunks(1 + DEAL_LINE_LEN).nth(dealer.checked_sub(1)?)?;
        let (&length, line) = place.split_first()?;
        line.get(..length.into()).filter(|line| !line.is_empty())
    }
}

/// [`Dealers::new`].
impl Default for Dealers {
    fn default() -> Self {
        Self::new()
    }
}

/// The last dealer, and the lines that wait.
impl fmt::Debug for Dealers {
    fn fmt(&self, f: &mut fmt::Formatter) -> fmt::Result {
        let mut shown = f.debug_struct("Dealers");
        shown.field("last", &self.last()).field("waiting", &Waiting(self)).finish()
    }
}

struct Waiting<'a>(&'a Dealers);

impl fmt::Debug for Waiting<'_> {
    fn fmt(&self, f: &mut fmt::Formatter) -> fmt::Result {
        let mut lines = f.debug_map();
        for (dealer, line) in (1..=DEALERS).filter_map(|of| Some((of, self.0.waiting(of)?))) {
            lines.entry(&dealer, &format_args!("{}", line.escape_ascii()));
        }
        lines.finish()
    }
}

impl Session {
    /// Takes one line, from the dealer after the one last served, going round, the first with a line
    /// waiting, reads it and deals it like [`deal`](Self::deal). If no line waits the turn is not refused
    /// and changes nothing.
    ///
    /// Refusals 1 to 5 and 16 take no line, and such a turn is not counted. Once a line is taken its place
    /// is free and its dealer the last served, whatever follows: 10 for any but a `D` line, 11, 7 or 8, with
    /// which nothing else has changed.
    #[inline]
    pub fn turn(self, rows: &mut [u32], dealers: &mut Dealers) -> Answer {
        let state = &mut dealers.0;
        // SAFETY: each list is a borrowed pointer and length, and neither overlaps the other.
        unsafe {
            sys::gantsorol_turn(
                self,
                rows.as_mut_ptr(),
                rows.len(),
                state.as_mut_ptr(),
                state.len(),
            )
        }
    }
}
