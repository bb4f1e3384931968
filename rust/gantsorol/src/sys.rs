//! The library's functions, as `crates/gantsorol/src` has them: `tests/declarations.rs` compares.

use crate::{Answer, Line, Number, Session, Term, Written};

extern "C" {
    pub fn gantsorol_new(
        n: usize,
        t: usize,
        post: usize,
        points: usize,
        first: u32,
        second: u32,
    ) -> Answer;

    pub fn gantsorol_load_row(
        session: Session,
        rows: *mut u32,
        rows_len: usize,
        row: usize,
        pack: *const u32,
        pack_len: usize,
    ) -> Answer;

    pub fn gantsorol_load_triple(
        session: Session,
        rows: *mut u32,
        rows_len: usize,
        first: usize,
        pack: *const u32,
        pack_len: usize,
    ) -> Answer;

    pub fn gantsorol_deal(
        session: Session,
        rows: *mut u32,
        rows_len: usize,
        row: usize,
        c: u32,
    ) -> Answer;

    pub fn gantsorol_opening_message(
        session: Session,
        rows: *const u32,
        rows_len: usize,
        row: usize,
        caller: usize,
        out: *mut u32,
        out_len: usize,
    ) -> Answer;

    pub fn gantsorol_access(session: Session, line: *const u8, line_len: usize) -> Answer;

    pub fn gantsorol_open(
        session: Session,
        rows: *const u32,
        rows_len: usize,
        row: usize,
        record: *const u32,
        record_len: usize,
    ) -> Answer;

    pub fn gantsorol_linear(
        session: Session,
        rows: *mut u32,
        rows_len: usize,
        dest: usize,
        a: usize,
        b: usize,
        scale: u32,
        fee: u32,
    ) -> Answer;

    pub fn gantsorol_masks(
        session: Session,
        rows: *const u32,
        rows_len: usize,
        a: usize,
        b: usize,
        first: usize,
        out: *mut u32,
        out_len: usize,
    ) -> Answer;

    pub fn gantsorol_collect(
        session: Session,
        rows: *const u32,
        rows_len: usize,
        first: usize,
        record_a: *const u32,
        record_a_len: usize,
        record_b: *const u32,
        record_b_len: usize,
    ) -> Answer;

    pub fn gantsorol_multiply(
        session: Session,
        rows: *mut u32,
        rows_len: usize,
        first: usize,
    ) -> Answer;

    pub fn gantsorol_new_state(state: *mut u8, state_len: usize) -> u8;

    pub fn gantsorol_place(
        state: *mut u8,
        state_len: usize,
        dealer: usize,
        line: *const u8,
        line_len: usize,
    ) -> u8;

    pub fn gantsorol_turn(
        session: Session,
        rows: *mut u32,
        rows_len: usize,
        state: *mut u8,
        state_len: usize,
    ) -> Answer;

    pub fn gantsorol_relation_masks(
        session: Session,
        rows: *const u32,
        rows_len: usize,
        terms: *const Term,
        terms_len: usize,
        out: *mut u32,
        out_len: usize,
    ) -> Answer;

    pub fn gantsorol_relation_finish(
        session: Session,
        rows: *mut u32,
        rows_len: usize,
        terms: *const Term,
        terms_len: usize,
        row: usize,
        records: *const u32,
        records_len: usize,
    ) -> Answer;

    pub fn gantsorol_record_put(
        n: usize,
        t: usize,
        points: usize,
        record: *mut u32,
        record_len: usize,
        post: usize,
        message: *const u32,
        message_len: usize,
    ) -> u8;

    pub fn gantsorol_record_remove(
        n: usize,
        t: usize,
        points: usize,
        record: *mut u32,
        record_len: usize,
        post: usize,
    ) -> u8;

    pub fn gantsorol_factory_row(
        n: usize,
        t: usize,
        points: usize,
        check_points: *const u32,
        check_points_len: usize,
        draw: *const u32,
        draw_len: usize,
        out: *mut u32,
        out_len: usize,
    ) -> u8;

    pub fn gantsorol_factory_triple(
        n: usize,
        t: usize,
        points: usize,
        check_points: *const u32,
        check_points_len: usize,
        draw: *const u32,
        draw_len: usize,
        out: *mut u32,
        out_len: usize,
    ) -> u8;

    pub fn gantsorol_dealer_number(u: u32, constant: u32) -> Number;

    pub fn gantsorol_write_pack(
        n: usize,
        t: usize,
        post: usize,
        points: usize,
        check_points: *const u32,
        check_points_len: usize,
        kinds: *const u8,
        kinds_len: usize,
        draws: *const u32,
        draws_len: usize,
        out: *mut u8,
        out_len: usize,
    ) -> Written;

    pub fn gantsorol_other_draw(
        n: usize,
        t: usize,
        points: usize,
        check_points: *const u32,
        check_points_len: usize,
        draw: *const u32,
        draw_len: usize,
        secret: u32,
        wanted: u32,
        posts: *const u32,
        posts_len: usize,
        out: *mut u32,
        out_len: usize,
    ) -> u8;

    pub fn gantsorol_write_deal(
        n: usize,
        t: usize,
        row: usize,
        c: u32,
        out: *mut u8,
        out_len: usize,
    ) -> Written;

    pub fn gantsorol_write_opening(
        n: usize,
        t: usize,
        points: usize,
        row: usize,
        post: usize,
        coefficients: *const u32,
        coefficients_len: usize,
        out: *mut u8,
        out_len: usize,
    ) -> Written;

    pub fn gantsorol_write_masks(
        n: usize,
        t: usize,
        points: usize,
        row: usize,
        post: usize,
        coefficients: *const u32,
        coefficients_len: usize,
        out: *mut u8,
        out_len: usize,
    ) -> Written;

    pub fn gantsorol_read(
        n: usize,
        t: usize,
        points: usize,
        line: *const u8,
        line_len: usize,
        out: *mut u32,
        out_len: usize,
    ) -> Line;
}
