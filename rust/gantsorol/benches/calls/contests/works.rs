//! The factory's calls, the dealer's number, pack files and the draw behind another secret.

use std::hint::black_box;

use reference::{Library, REFERENCE};

use super::{contest, filling, repeated, Contest};
use crate::fastest;
use crate::inputs::Inputs;

fn refused(answer: &Result<(), gantsorol::Refusal>) -> u8 {
    answer.err().map_or(0, gantsorol::Refusal::number)
}

/// The second implementation's dealer's number, over C's interface as ours is: to hand the answer
/// over takes as long as to work it out.
extern "C" fn second_number(u: u32, constant: u32) -> gantsorol::Number {
    let (refusal, value) = REFERENCE.dealer_number(u, constant);
    gantsorol::Number { refusal, value }
}

fn factory_row(i: &Inputs) -> Contest<'_> {
    let (n, t, k, own, draw) = (i.n, i.t, i.points, &i.check_points[..], &i.row_draw[..]);
    let packs = gantsorol::packs_len(n, t, k);
    let ours = filling(packs, move |out| gantsorol::factory_row(n, t, k, own, draw, out), refused);
    let second = filling(packs, move |out| REFERENCE.factory_row(n, t, k, own, draw, out), |&a| a);
    let fastest = filling(packs, move |out| fastest::factory_row(n, t, k, own, draw, out), |&a| a);
    Contest { name: "factory row", runs: vec![ours, second, fastest] }
}

pub fn all(i: &Inputs) -> Vec<Contest<'_>> {
    let (n, t, k) = (i.n, i.t, i.points);
    let packs = gantsorol::packs_len(n, t, k);
    let second: extern "C" fn(u32, u32) -> gantsorol::Number = second_number;
    let second = black_box(second);
    vec![
        factory_row(i),
        contest(
            "factory triple",
            filling(
                3 * packs,
                move |out| gantsorol::factory_triple(n, t, k, &i.check_points, &i.triple_draw, out),
                refused,
            ),
            filling(
                3 * packs,
                move |out| REFERENCE.factory_triple(n, t, k, &i.check_points, &i.triple_draw, out),
                |&a| a,
            ),
        ),
        contest(
            "dealer's number",
            repeated(
                move || gantsorol::dealer_number(black_box(i.numbers[0]), i.numbers[1]),
                |a| a.refusal,
            ),
            repeated(move || second(black_box(i.numbers[0]), i.numbers[1]), |a| a.refusal),
        ),
        pack_file(i),
        other_draw(i),
    ]
}

/// The draw behind another secret, with as many posts listed as may be.
fn other_draw(i: &Inputs) -> Contest<'_> {
    let (n, t, k, own, draw) = (i.n, i.t, i.points, &i.check_points[..], &i.row_draw[..]);
    let listed: Vec<usize> = (1..=t).collect();
    let [posts, same] = [(); 2].map(|()| (1..=t as u32).collect::<Vec<u32>>());
    let ours = filling(
        draw.len(),
        move |out| gantsorol::other_draw(n, t, k, own, draw, 3, 4, &posts, out),
        refused,
    );
    let second = filling(
        draw.len(),
        move |out| REFERENCE.other_draw(n, t, k, own, draw, 3, 4, &listed, out),
        |&a| a,
    );
    let fastest = filling(
        draw.len(),
        move |out| fastest::other_draw([n, t, k], own, draw, [3, 4], &same, out),
        |&a| a,
    );
    Contest { name: "other draw", runs: vec![ours, second, fastest] }
}

/// A post's file of a raw row and a triple.
fn pack_file(i: &Inputs) -> Contest<'_> {
    let (n, t, k, own) = (i.n, i.t, i.points, &i.check_points[..]);
    let draws = [&i.row_draw[..], &i.triple_draw].concat();
    let (mut kinds, same) = ([0; gantsorol::ROWS], draws.clone());
    (kinds[0], kinds[1]) = (1, 3);
    let room = gantsorol::pack_file_len(n, t, k, 1, 1);
    contest(
        "write pack file",
        filling(
            room,
            move |out| gantsorol::write_pack(n, t, 1, k, own, &kinds, &draws, out),
            |a| a.refusal,
        ),
        filling(
            room,
            move |out| REFERENCE.write_pack(n, t, k, 1, own, &kinds, &same, out),
            |a| a.refusal,
        ),
    )
}
