//! Calls on a session.

use std::hint::black_box;

use reference::{Library, Term, REFERENCE};

use super::{contest, on_ours, on_second, repeated, Contest};
use crate::fastest;
use crate::inputs::Inputs;

/// An opening: against the fastest, and against the fastest that gets the session as the library does, by value under C's rules.
fn opening<'a>(names: [&'static str; 2], i: &'a Inputs, record: &'a [u32]) -> [Contest<'a>; 2] {
    let ours = || on_ours(i, move |s, rows| s.open(rows, 1, record));
    let second = || on_second(i, move |s, rows| REFERENCE.open(s, rows, 1, record));
    let fastest = on_ours(i, move |s, rows| fastest::open(s, rows, 1, record));
    let by_value = on_ours(i, move |s, rows| fastest::open_by_value(s, rows, 1, record));
    let [name, alike] = names;
    [
        Contest { name, runs: vec![ours(), second(), fastest] },
        Contest { name: alike, runs: vec![ours(), second(), by_value] },
    ]
}

fn loading_and_dealing(i: &Inputs) -> Vec<Contest<'_>> {
    let (n, t, k, own) = (i.n, i.t, i.points, &i.check_points[..i.points]);
    vec![
        contest(
            "new",
            repeated(move || gantsorol::Session::new(n, t, 1, black_box(own)), |a| a.refusal),
            repeated(
                move || REFERENCE.new_session(n, t, 1, k, black_box(own)[0], own[k - 1]),
                |a| a.refusal,
            ),
        ),
        contest(
            "load row",
            on_ours(i, move |s, rows| s.load_row(rows, 95, &i.pack)),
            on_second(i, move |s, rows| REFERENCE.load_row(s, rows, 95, &i.pack)),
        ),
        contest(
            "load triple",
            on_ours(i, move |s, rows| s.load_triple(rows, 93, &i.triple_pack)),
            on_second(i, move |s, rows| REFERENCE.load_triple(s, rows, 93, &i.triple_pack)),
        ),
        contest(
            "deal",
            on_ours(i, move |s, rows| s.deal(rows, 0, i.numbers[0])),
            on_second(i, move |s, rows| REFERENCE.deal(s, rows, 0, i.numbers[0])),
        ),
        contest(
            "access",
            on_ours(i, move |s, _| s.access(&i.access)),
            on_second(i, move |s, _| REFERENCE.set_callers(s, &i.access)),
        ),
    ]
}

/// A dealers' state in which this dealer's line of row 0 waits, and the line.
fn waiting(i: &Inputs, dealer: usize) -> (gantsorol::Dealers, Vec<u8>) {
    let (mut dealers, line) = (gantsorol::Dealers::new(), format!("D,0,{}\n", i.numbers[0]));
    dealers.place(dealer, line.as_bytes()).expect("the place is free");
    (dealers, line.into_bytes())
}

/// A turn; the third run is the same line read and dealt by two calls, of which it is to take 1.2 at most.
fn turn<'a>(i: &'a Inputs, name: &'static str, dealer: usize) -> Contest<'a> {
    let (n, t, points) = (i.n, i.t, i.points);
    let ours = {
        let (waits, _) = waiting(i, dealer);
        let mut dealers = waits.clone();
        on_ours(i, move |s, rows| {
            let length = 17 * dealer - 16;
            (dealers.0[0], dealers.0[length]) = (waits.0[0], waits.0[length]);
            s.turn(rows, black_box(&mut dealers))
        })
    };
    let second = {
        let (waits, _) = waiting(i, dealer);
        on_second(i, move |s, rows| REFERENCE.turn(s, rows, &mut waits.clone().0))
    };
    let two_calls = {
        let (_, line) = waiting(i, dealer);
        let mut list = vec![0; gantsorol::line_list_len(t, points)];
        on_ours(i, move |s, rows| {
            let read = gantsorol::read(n, t, points, black_box(&line), &mut list);
            s.deal(rows, read.row, list[0])
        })
    };
    Contest { name, runs: vec![ours, second, two_calls] }
}

/// The next dealer's line, and the last's, behind seven free places.
fn turns(i: &Inputs) -> Vec<Contest<'_>> {
    vec![turn(i, "turn, dealer 1", 1), turn(i, "turn, dealer 8", 8)]
}

fn openings(i: &Inputs) -> Vec<Contest<'_>> {
    let message = || vec![0; gantsorol::message_len(i.t, i.points)];
    let sent = contest(
        "opening message",
        {
            let mut out = message();
            on_ours(i, move |s, rows| s.opening_message(rows, 1, 1, &mut out))
        },
        {
            let mut out = message();
            on_second(i, move |s, rows| REFERENCE.opening_message(s, rows, 1, 1, &mut out))
        },
    );
    let opened = [
        opening(["open", "open, by value"], i, &i.record),
        opening(["open, few there", "few, by value"], i, &i.scattered),
        opening(["open, 2 missing", "2 gone, by value"], i, &i.one_missing),
    ];
    std::iter::once(sent).chain(opened.into_iter().flatten()).collect()
}

fn sums_and_products(i: &Inputs) -> Vec<Contest<'_>> {
    let masks = || vec![0; gantsorol::masks_len(i.t, i.points)];
    let [left, right] = &i.masked;
    vec![
        contest(
            "multiply",
            on_ours(i, move |mut s, rows| {
                s.marks[6] = 7;
                s.multiply(rows, 6)
            }),
            on_second(i, move |mut s, rows| {
                s.marks[6] = 7;
                REFERENCE.multiply(s, rows, 6)
            }),
        ),
        contest(
            "linear",
            on_ours(i, move |s, rows| s.linear(rows, 95, 1, 2, i.numbers[0], i.numbers[1])),
            on_second(i, move |s, rows| {
                REFERENCE.linear(s, rows, 95, 1, 2, i.numbers[0], i.numbers[1])
            }),
        ),
        contest(
            "masks",
            {
                let mut out = masks();
                on_ours(i, move |s, rows| s.masks(rows, 1, 2, 3, &mut out))
            },
            {
                let mut out = masks();
                on_second(i, move |s, rows| REFERENCE.masks(s, rows, 1, 2, 3, &mut out))
            },
        ),
        contest(
            "collect, multiply",
            on_ours(i, move |s, rows| s.collect(rows, 6, left, right).session.multiply(rows, 6)),
            on_second(i, move |s, rows| {
                let opened = REFERENCE.open_masks(s, rows, 6, left, right);
                REFERENCE.multiply(opened.session, rows, 6)
            }),
        ),
    ]
}

/// A relation of two terms, a product with the triple at `first` and a plain one.
fn relation(i: &Inputs, first: usize) -> ([gantsorol::Term; 2], [Term; 2]) {
    let (one, other) = (i.numbers[0], i.numbers[1]);
    let ours = [gantsorol::Term::product(one, 1, 2, first), gantsorol::Term::plain(other, 1)];
    let second = ours.map(|gantsorol::Term { coefficient, row, second, first }| Term {
        coefficient,
        row: row.into(),
        second: second.into(),
        first: first.into(),
    });
    (ours, second)
}

fn relations(i: &Inputs) -> Vec<Contest<'_>> {
    let masks = || vec![0; gantsorol::masks_len(i.t, i.points)];
    let records = || i.masked.concat();
    let ((unused, unused2), (masked, masked2)) = (relation(i, 3), relation(i, 6));
    vec![
        contest(
            "relation masks",
            {
                let mut out = masks();
                on_ours(i, move |s, rows| s.relation_masks(rows, &unused, &mut out))
            },
            {
                let mut out = masks();
                on_second(i, move |s, rows| REFERENCE.relation_masks(s, rows, &unused2, &mut out))
            },
        ),
        contest(
            "relation finish",
            {
                let records = records();
                on_ours(i, move |s, rows| s.relation_finish(rows, &masked, 95, &records))
            },
            {
                let records = records();
                on_second(i, move |s, rows| {
                    REFERENCE.relation_finish(s, rows, &masked2, &records, 95)
                })
            },
        ),
    ]
}

pub fn all(i: &Inputs) -> Vec<Contest<'_>> {
    [loading_and_dealing, turns, openings, sums_and_products, relations]
        .into_iter()
        .flat_map(|calls| calls(i))
        .collect()
}
