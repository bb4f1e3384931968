//! A post's session, and the calls on it.

use core::{fmt, mem};

use crate::posts::Limited;
use crate::{erase, sys, Refusal, ROWS, SETS_LEN};

/// What a post remembers beside its rows.
///
/// The fields may hold anything: each call checks what it needs. A call takes the session and hands
/// it back, so that none is used twice; a copy has to be asked for. Where a session stands in a
/// place of its own, [`take`](Self::take) and [`Answer::keep`] move it out and in again:
///
/// ```
/// # use gantsorol::{rows_len, Refusal, Session};
/// # let (mut session, mut rows) = (Session::new(3, 1, 1, &[2]).accepted()?.0, [0; rows_len(3, 1, 1)]);
/// session.take().load_row(&mut rows, 0, &[1, 2, 5, 5, 17, 12, 18, 24]).keep(&mut session)?;
/// let again = session.take().load_row(&mut rows, 0, &[0; 8]).keep(&mut session);
/// assert_eq!(again, Err(Refusal::WrongMark));
/// session.take().deal(&mut rows, 0, 93).keep(&mut session)?;
/// # Ok::<(), Refusal>(())
/// ```
#[repr(C)]
#[derive(Clone, PartialEq, Eq)]
pub struct Session {
    /// The number of posts.
    pub n: usize,
    /// t posts learn nothing, t+1 open.
    pub t: usize,
    /// The post's own number, from 1.
    pub post: usize,
    /// How many check points the post has, 1 or 2.
    pub points: usize,
    /// The post's first check point.
    pub first: u32,
    /// The second, where there are two; else 0 and not looked at.
    pub second: u32,
    /// The mark of each row: 0 empty, 1 raw, 2 held; 3, 4, 5 and 7 belong to triples, 6 is
    /// spent.
    pub marks: [u8; ROWS],
    /// At the first row of a triple whose masks were sent: the first factor's row.
    pub factor_a: [u8; ROWS],
    /// At the first row of a triple whose masks were sent: the second factor's row.
    pub factor_b: [u8; ROWS],
    /// At the first row of a triple whose masks were opened: y = a − l. It stays after the product.
    pub y_a: [u32; ROWS],
    /// At the first row of a triple whose masks were opened: y' = b − l'. It stays after the product.
    pub y_b: [u32; ROWS],
    /// The posts that may not call for a row's opening, eight numbers a row: post j is barred from row
    /// r where bit (j − 1) % 32 of number 8r + (j − 1) / 32 is 1. [`callers`](Self::callers) has the
    /// posts that may.
    pub barred: [u32; SETS_LEN],
}

/// Without the check points, which are secret. `callers` has the rows that not every post may call for.
impl fmt::Debug for Session {
    fn fmt(&self, f: &mut fmt::Formatter) -> fmt::Result {
        let Self { n, t, post, points, first: _, second: _, .. } = self;
        let Self { marks, factor_a, factor_b, y_a, y_b, .. } = self;
        let mut shown = f.debug_struct("Session");
        shown.field("n", n).field("t", t).field("post", post).field("points", points);
        shown.field("marks", marks).field("factor_a", factor_a).field("factor_b", factor_b);
        shown.field("y_a", y_a).field("y_b", y_b).field("callers", &Limited(self));
        shown.finish_non_exhaustive()
    }
}

/// A session with 0 in every field: every call refuses it with [`Refusal::BadPostCount`].
impl Default for Session {
    fn default() -> Self {
        Self {
            n: 0,
            t: 0,
            post: 0,
            points: 0,
            first: 0,
            second: 0,
            marks: [0; ROWS],
            factor_a: [0; ROWS],
            factor_b: [0; ROWS],
            y_a: [0; ROWS],
            y_b: [0; ROWS],
            barred: [0; SETS_LEN],
        }
    }
}

/// What a call on a session hands back.
#[repr(C)]
#[derive(Clone, Debug, PartialEq, Eq)]
#[must_use = "the answer holds the session, and says whether the call was refused"]
pub struct Answer {
    /// The refusal's number, 0 for none.
    pub refusal: u8,
    /// The number opened; 0 when refused, and from calls that open nothing.
    pub value: u32,
    /// The session after the call: when refused, as it was given.
    pub session: Session,
}

impl Answer {
    /// The session and the number opened, or the refusal.
    ///
    /// A refused call's session is dropped here; the field [`Answer::session`] still has it.
    #[inline]
    pub fn accepted(self) -> Result<(Session, u32), Refusal> {
        Refusal::check(self.refusal)?;
        Ok((self.session, self.value))
    }

    /// Puts the session into its place, refused or not; the number opened, or the refusal.
    #[inline]
    pub fn keep(self, session: &mut Session) -> Result<u32, Refusal> {
        *session = self.session;
        Refusal::check(self.refusal)?;
        Ok(self.value)
    }
}

impl Session {
    /// A new session, all rows empty; a refused one has 0 in every field. Refusals 1 to 4.
    ///
    /// `check_points` are the post's own, one or two: its part of the works' list. Any other number of
    /// them gets 4.
    #[allow(clippy::new_ret_no_self)]
    #[inline]
    pub fn new(n: usize, t: usize, post: usize, check_points: &[u32]) -> Answer {
        let point = |place: usize| check_points.get(place).copied().unwrap_or(0);
        // SAFETY: the function takes any values.
        unsafe { sys::gantsorol_new(n, t, post, check_points.len(), point(0), point(1)) }
    }

    /// The session, for the next call; its place has the default until [`Answer::keep`] fills it.
    #[inline]
    #[must_use = "the session is no longer in its place"]
    pub fn take(&mut self) -> Self {
        mem::take(self)
    }

    /// Zeros over every field, once the session is no longer needed. Copies that calls had on the
    /// stack stay there until they are written over.
    pub fn erase(&mut self) {
        let Self { n, t, post, points, first, second, .. } = self;
        [n, t, post, points].into_iter().for_each(|field| erase(core::slice::from_mut(field)));
        [first, second].into_iter().for_each(|point| erase(core::slice::from_mut(point)));
        let Self { marks, factor_a, factor_b, y_a, y_b, barred, .. } = self;
        [marks, factor_a, factor_b].into_iter().for_each(|list| erase(list));
        [y_a, y_b].into_iter().for_each(|list| erase(list));
        erase(barred);
    }

    /// Loads the post's part of a drawn row, [`row_len`](crate::row_len) numbers, into an empty
    /// row, which becomes raw. Refusals 1 to 8.
    #[inline]
    pub fn load_row(self, rows: &mut [u32], row: usize, pack: &[u32]) -> Answer {
        // SAFETY: each list is a borrowed slice's pointer and length, and `rows` overlaps no other.
        unsafe {
            sys::gantsorol_load_row(
                self,
                rows.as_mut_ptr(),
                rows.len(),
                row,
                pack.as_ptr(),
                pack.len(),
            )
        }
    }

    /// Loads the post's part of a drawn triple, three rows' numbers, into the empty rows `first`,
    /// `first` + 1 and `first` + 2. Refusals 1 to 8.
    #[inline]
    pub fn load_triple(self, rows: &mut [u32], first: usize, pack: &[u32]) -> Answer {
        // SAFETY: each list is a borrowed slice's pointer and length, and `rows` overlaps no other.
        unsafe {
            sys::gantsorol_load_triple(
                self,
                rows.as_mut_ptr(),
                rows.len(),
                first,
                pack.as_ptr(),
                pack.len(),
            )
        }
    }

    /// Adds the dealer's number c to the public sums of a raw row, which becomes held.
    /// Refusals 1 to 8.
    #[inline]
    pub fn deal(self, rows: &mut [u32], row: usize, c: u32) -> Answer {
        // SAFETY: the list is a borrowed slice's pointer and length.
        unsafe { sys::gantsorol_deal(self, rows.as_mut_ptr(), rows.len(), row, c) }
    }

    /// Reads an `A` line, `A,row,` and rising post numbers, or `A,row,` alone, its line feed included: the
    /// posts that may call for the opening of a raw row, whoever might before. Refusals 1 to 4, 10 (also
    /// where the numbers don't rise), 11, 7.
    ///
    /// ```
    /// # use gantsorol::{rows_len, Posts, Refusal, Session};
    /// # let (mut session, mut rows) = (Session::new(3, 1, 1, &[2]).accepted()?.0, [0; rows_len(3, 1, 1)]);
    /// session.take().load_row(&mut rows, 0, &[1, 2, 5, 5, 17, 12, 18, 24]).keep(&mut session)?;
    /// assert_eq!(session.callers(0), Posts::all(3));
    /// session.take().access(b"A,0,1,3\n").keep(&mut session)?;
    /// assert_eq!(session.callers(0), Posts::of(&[1, 3]));
    ///
    /// session.take().deal(&mut rows, 0, 93).keep(&mut session)?;
    /// let mut message = [0; 2];
    /// let barred = session.take().opening_message(&rows, 0, 2, &mut message).keep(&mut session);
    /// assert_eq!(barred, Err(Refusal::CallerBarred));
    /// session.take().opening_message(&rows, 0, 3, &mut message).keep(&mut session)?;
    /// assert_eq!(message, [1, 2]);
    /// # Ok::<(), Refusal>(())
    /// ```
    #[inline]
    pub fn access(self, line: &[u8]) -> Answer {
        // SAFETY: the list is a borrowed slice's pointer and length; it is not written.
        unsafe { sys::gantsorol_access(self, line.as_ptr(), line.len()) }
    }

    /// Writes the coefficients of a held row, [`message_len`](crate::message_len) numbers, into `out`, for
    /// the post that calls for the opening. Refusals 1 to 8; 15 for a caller that the row's set does not
    /// have, 0 and any above n too.
    #[inline]
    pub fn opening_message(
        self,
        rows: &[u32],
        row: usize,
        caller: usize,
        out: &mut [u32],
    ) -> Answer {
        // SAFETY: each list is a borrowed slice's pointer and length, and `out` overlaps no other.
        unsafe {
            sys::gantsorol_opening_message(
                self,
                rows.as_ptr(),
                rows.len(),
                row,
                caller,
                out.as_mut_ptr(),
                out.len(),
            )
        }
    }

    /// Opens a held row with a record: for each post a mark, 0 absent or 1 present, and its message.
    /// A message is accepted where it has the row's check value at each of the post's check points.
    /// The number opened is the answer's value. Refusals 1 to 9, 13.
    #[inline]
    pub fn open(self, rows: &[u32], row: usize, record: &[u32]) -> Answer {
        // SAFETY: each list is a borrowed slice's pointer and length; neither is written.
        unsafe {
            sys::gantsorol_open(self, rows.as_ptr(), rows.len(), row, record.as_ptr(), record.len())
        }
    }

    /// Writes row a plus `scale` times row b, both held, into the empty row `dest`, which becomes
    /// held. The `fee`, a public element, is added to its public sums alone: its number is a's plus
    /// `scale` times b's plus the fee. The posts that may call for it are those that may for both.
    /// Refusals 1 to 8.
    #[inline]
    pub fn linear(
        self,
        rows: &mut [u32],
        dest: usize,
        a: usize,
        b: usize,
        scale: u32,
        fee: u32,
    ) -> Answer {
        // SAFETY: the list is a borrowed slice's pointer and length.
        unsafe {
            sys::gantsorol_linear(self, rows.as_mut_ptr(), rows.len(), dest, a, b, scale, fee)
        }
    }
}
