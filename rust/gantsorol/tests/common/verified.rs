//! The verified library as the second implementation's trait, so that both can be compared.

use gantsorol::Session;
use reference::{Answer, Library, ReadLine, Written};

use super::handed::{answered, given, number_of, told, written};

/// The verified library.
pub struct Verified;

extern "C" {
    /// The binding takes a session's check points as a list; here their number and the second are any.
    fn gantsorol_new(
        n: usize,
        t: usize,
        post: usize,
        points: usize,
        first: u32,
        second: u32,
    ) -> gantsorol::Answer;

    /// The binding's dealers' state has 137 bytes; here it has any number of them.
    fn gantsorol_new_state(state: *mut u8, state_len: usize) -> u8;
    fn gantsorol_place(
        state: *mut u8,
        state_len: usize,
        dealer: usize,
        line: *const u8,
        line_len: usize,
    ) -> u8;
    fn gantsorol_turn(
        session: Session,
        rows: *mut u32,
        rows_len: usize,
        state: *mut u8,
        state_len: usize,
    ) -> gantsorol::Answer;
}

/// A new session as the library's call makes it, whatever it is given.
pub fn new_session(
    n: usize,
    t: usize,
    post: usize,
    points: usize,
    first: u32,
    second: u32,
) -> gantsorol::Answer {
    // SAFETY: the function takes any values.
    unsafe { gantsorol_new(n, t, post, points, first, second) }
}

impl Library for Verified {
    fn new_session(
        &self,
        n: usize,
        t: usize,
        post: usize,
        k: usize,
        point: u32,
        second: u32,
    ) -> Answer {
        answered(new_session(n, t, post, k, point, second))
    }

    fn load_row(
        &self,
        s: reference::Session,
        rows: &mut [u32],
        row: usize,
        pack: &[u32],
    ) -> Answer {
        answered(given(s).load_row(rows, row, pack))
    }

    fn load_triple(
        &self,
        s: reference::Session,
        rows: &mut [u32],
        first: usize,
        pack: &[u32],
    ) -> Answer {
        answered(given(s).load_triple(rows, first, pack))
    }

    fn deal(&self, s: reference::Session, rows: &mut [u32], row: usize, c: u32) -> Answer {
        answered(given(s).deal(rows, row, c))
    }

    fn opening_message(
        &self,
        s: reference::Session,
        rows: &[u32],
        row: usize,
        caller: usize,
        out: &mut [u32],
    ) -> Answer {
        answered(given(s).opening_message(rows, row, caller, out))
    }

    fn set_callers(&self, s: reference::Session, line: &[u8]) -> Answer {
        answered(given(s).access(line))
    }

    fn new_dealers(&self, dealers: &mut [u8]) -> u8 {
        // SAFETY: the list is a borrowed slice's pointer and length.
        unsafe { gantsorol_new_state(dealers.as_mut_ptr(), dealers.len()) }
    }

    fn place_line(&self, dealers: &mut [u8], dealer: usize, line: &[u8]) -> u8 {
        // SAFETY: each list is a borrowed slice's pointer and length, and `dealers` overlaps no other.
        unsafe {
            gantsorol_place(dealers.as_mut_ptr(), dealers.len(), dealer, line.as_ptr(), line.len())
        }
    }

    fn turn(&self, s: reference::Session, rows: &mut [u32], dealers: &mut [u8]) -> Answer {
        let (state, length) = (dealers.as_mut_ptr(), dealers.len());
        // SAFETY: each list is a borrowed slice's pointer and length, and neither overlaps the other.
        answered(unsafe { gantsorol_turn(given(s), rows.as_mut_ptr(), rows.len(), state, length) })
    }

    fn open(&self, s: reference::Session, rows: &[u32], row: usize, record: &[u32]) -> Answer {
        answered(given(s).open(rows, row, record))
    }

    fn linear(
        &self,
        s: reference::Session,
        rows: &mut [u32],
        dest: usize,
        a: usize,
        b: usize,
        scale: u32,
        fee: u32,
    ) -> Answer {
        answered(given(s).linear(rows, dest, a, b, scale, fee))
    }

    fn masks(
        &self,
        s: reference::Session,
        rows: &[u32],
        a: usize,
        b: usize,
        first: usize,
        out: &mut [u32],
    ) -> Answer {
        answered(given(s).masks(rows, a, b, first, out))
    }

    fn open_masks(
        &self,
        s: reference::Session,
        rows: &[u32],
        first: usize,
        record: &[u32],
        record2: &[u32],
    ) -> Answer {
        answered(given(s).collect(rows, first, record, record2))
    }

    fn multiply(&self, s: reference::Session, rows: &mut [u32], first: usize) -> Answer {
        answered(given(s).multiply(rows, first))
    }

    fn relation_masks(
        &self,
        s: reference::Session,
        rows: &[u32],
        terms: &[reference::Term],
        out: &mut [u32],
    ) -> Answer {
        answered(given(s).relation_masks(rows, &told(terms), out))
    }

    fn relation_finish(
        &self,
        s: reference::Session,
        rows: &mut [u32],
        terms: &[reference::Term],
        records: &[u32],
        dest: usize,
    ) -> Answer {
        answered(given(s).relation_finish(rows, &told(terms), dest, records))
    }

    fn factory_row(
        &self,
        n: usize,
        t: usize,
        k: usize,
        points: &[u32],
        draw: &[u32],
        out: &mut [u32],
    ) -> u8 {
        number_of(gantsorol::factory_row(n, t, k, points, draw, out))
    }

    fn factory_triple(
        &self,
        n: usize,
        t: usize,
        k: usize,
        points: &[u32],
        draw: &[u32],
        out: &mut [u32],
    ) -> u8 {
        number_of(gantsorol::factory_triple(n, t, k, points, draw, out))
    }

    fn dealer_number(&self, u: u32, f0: u32) -> (u8, u32) {
        let number = gantsorol::dealer_number(u, f0);
        (number.refusal, number.value)
    }

    fn write_deal(&self, n: usize, t: usize, row: usize, c: u32, out: &mut [u8]) -> Written {
        written(gantsorol::write_deal(n, t, row, c, out))
    }

    fn write_opening(
        &self,
        n: usize,
        t: usize,
        k: usize,
        row: usize,
        post: usize,
        coefficients: &[u32],
        out: &mut [u8],
    ) -> Written {
        written(gantsorol::write_opening(n, t, k, row, post, coefficients, out))
    }

    fn write_masks(
        &self,
        n: usize,
        t: usize,
        k: usize,
        first: usize,
        post: usize,
        numbers: &[u32],
        out: &mut [u8],
    ) -> Written {
        written(gantsorol::write_masks(n, t, k, first, post, numbers, out))
    }

    fn read(&self, n: usize, t: usize, k: usize, line: &[u8], out: &mut [u32]) -> ReadLine {
        let gantsorol::Line { refusal, letter, row, post } = gantsorol::read(n, t, k, line, out);
        ReadLine { refusal, letter, row, post }
    }

    fn write_pack(
        &self,
        n: usize,
        t: usize,
        k: usize,
        post: usize,
        points: &[u32],
        kinds: &[u8],
        draws: &[u32],
        out: &mut [u8],
    ) -> Written {
        written(gantsorol::write_pack(n, t, post, k, points, kinds, draws, out))
    }

    fn other_draw(
        &self,
        n: usize,
        t: usize,
        k: usize,
        points: &[u32],
        draw: &[u32],
        secret: u32,
        wanted: u32,
        posts: &[usize],
        out: &mut [u32],
    ) -> u8 {
        // The binding has posts of 32 bits; one beyond them is outside 1..n too.
        let posts: Vec<u32> = posts.iter().map(|&j| u32::try_from(j).unwrap_or(u32::MAX)).collect();
        number_of(gantsorol::other_draw(n, t, k, points, draw, secret, wanted, &posts, out))
    }

    fn street(&self, _: &[u8]) -> Vec<u8> {
        unreachable!("the street program is no exported call")
    }
}
