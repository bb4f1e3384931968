//! This implementation as a [`Library`].

use super::Library;
use crate::lines::{ReadLine, Written};
use crate::relation::{self, Term};
use crate::session::{Answer, Session};
use crate::{callers, calls, dealers, factory, lines, opening, other_draw, pack, product};
use crate::{session, street, MODULUS};

/// This implementation, over the field with `P` elements.
#[derive(Clone, Copy, Debug, Default)]
pub struct Reference<const P: u32 = MODULUS>;

/// This implementation, over document 01's field.
pub const REFERENCE: Reference = Reference;

impl<const P: u32> Library for Reference<P> {
    fn new_session(
        &self,
        n: usize,
        t: usize,
        post: usize,
        k: usize,
        point: u32,
        second: u32,
    ) -> Answer {
        session::new_session::<P>(n, t, post, k, point, second)
    }

    fn load_row(&self, s: Session, rows: &mut [u32], row: usize, pack: &[u32]) -> Answer {
        calls::load_row::<P>(s, rows, row, pack)
    }

    fn load_triple(&self, s: Session, rows: &mut [u32], first: usize, pack: &[u32]) -> Answer {
        calls::load_triple::<P>(s, rows, first, pack)
    }

    fn deal(&self, s: Session, rows: &mut [u32], row: usize, c: u32) -> Answer {
        calls::deal::<P>(s, rows, row, c)
    }

    fn opening_message(
        &self,
        s: Session,
        rows: &[u32],
        row: usize,
        caller: usize,
        out: &mut [u32],
    ) -> Answer {
        calls::opening_message::<P>(s, rows, row, caller, out)
    }

    fn set_callers(&self, s: Session, line: &[u8]) -> Answer {
        callers::set_callers::<P>(s, line)
    }

    fn new_dealers(&self, dealers: &mut [u8]) -> u8 {
        dealers::new_dealers(dealers)
    }

    fn place_line(&self, dealers: &mut [u8], dealer: usize, line: &[u8]) -> u8 {
        dealers::place_line(dealers, dealer, line)
    }

    fn turn(&self, s: Session, rows: &mut [u32], dealers: &mut [u8]) -> Answer {
        dealers::turn::<P>(s, rows, dealers)
    }

    fn open(&self, s: Session, rows: &[u32], row: usize, record: &[u32]) -> Answer {
        opening::open::<P>(s, rows, row, record)
    }

    fn linear(
        &self,
        s: Session,
        rows: &mut [u32],
        dest: usize,
        a: usize,
        b: usize,
        scale: u32,
        fee: u32,
    ) -> Answer {
        calls::linear::<P>(s, rows, dest, a, b, scale, fee)
    }

    fn masks(
        &self,
        s: Session,
        rows: &[u32],
        a: usize,
        b: usize,
        first: usize,
        out: &mut [u32],
    ) -> Answer {
        product::masks::<P>(s, rows, a, b, first, out)
    }

    fn open_masks(
        &self,
        s: Session,
        rows: &[u32],
        first: usize,
        record: &[u32],
        record2: &[u32],
    ) -> Answer {
        product::open_masks::<P>(s, rows, first, record, record2)
    }

    fn multiply(&self, s: Session, rows: &mut [u32], first: usize) -> Answer {
        product::multiply::<P>(s, rows, first)
    }

    fn relation_masks(&self, s: Session, rows: &[u32], terms: &[Term], out: &mut [u32]) -> Answer {
        relation::relation_masks::<P>(s, rows, terms, out)
    }

    fn relation_finish(
        &self,
        s: Session,
        rows: &mut [u32],
        terms: &[Term],
        records: &[u32],
        dest: usize,
    ) -> Answer {
        relation::relation_finish::<P>(s, rows, terms, records, dest)
    }

    fn factory_row(
        &self,
        n: usize,
        t: usize,
        k: usize,
        points: &[u32],
        draw: &[u32],
        out: &mut [u32],
    ) -> u8 {
        factory::factory_row::<P>(n, t, k, points, draw, out)
    }

    fn factory_triple(
        &self,
        n: usize,
        t: usize,
        k: usize,
        points: &[u32],
        draw: &[u32],
        out: &mut [u32],
    ) -> u8 {
        factory::factory_triple::<P>(n, t, k, points, draw, out)
    }

    fn dealer_number(&self, u: u32, f0: u32) -> (u8, u32) {
        factory::dealer_number::<P>(u, f0)
    }

    fn write_deal(&self, n: usize, t: usize, row: usize, c: u32, out: &mut [u8]) -> Written {
        lines::write_deal::<P>(n, t, row, c, out)
    }

    fn write_opening(
        &self,
        n: usize,
        t: usize,
        k: usize,
        row: usize,
        post: usize,
        coefficients: &[u32],
        out: &mut [u8],
    ) -> Written {
        lines::write_opening::<P>(n, t, k, row, post, coefficients, out)
    }

    fn write_masks(
        &self,
        n: usize,
        t: usize,
        k: usize,
        first: usize,
        post: usize,
        numbers: &[u32],
        out: &mut [u8],
    ) -> Written {
        lines::write_masks::<P>(n, t, k, first, post, numbers, out)
    }

    fn read(&self, n: usize, t: usize, k: usize, line: &[u8], out: &mut [u32]) -> ReadLine {
        lines::read::<P>(n, t, k, line, out)
    }

    fn write_pack(
        &self,
        n: usize,
        t: usize,
        k: usize,
        post: usize,
        points: &[u32],
        kinds: &[u8],
        draws: &[u32],
        out: &mut [u8],
    ) -> Written {
        pack::write_pack::<P>(n, t, k, post, points, kinds, draws, out)
    }

    fn other_draw(
        &self,
        n: usize,
        t: usize,
        k: usize,
        points: &[u32],
        draw: &[u32],
        secret: u32,
        wanted: u32,
        posts: &[usize],
        out: &mut [u32],
    ) -> u8 {
        other_draw::other_draw::<P>(n, t, k, points, draw, secret, wanted, posts, out)
    }

    fn street(&self, input: &[u8]) -> Vec<u8> {
        street::street::<P>(input)
    }
}
