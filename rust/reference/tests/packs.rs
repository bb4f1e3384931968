//! Request (vii): the works writes the pack files.

mod common;

use common::*;
use reference::random::{check_points, street_shape, Call, Rng, SharedRow, State};
use reference::{Library, Session, Shape, Street, MODULUS, REFERENCE};

const UNTOUCHED: u8 = b'#';

/// Kinds of 96 rows, 0 but for these.
fn kinds(some: &[(usize, u8)]) -> Vec<u8> {
    let mut kinds = vec![0; 96];
    some.iter().for_each(|&(row, kind)| kinds[row] = kind);
    kinds
}

/// n, t and the post.
type Heading = (usize, usize, usize);

/// What the writer answers, and what it wrote into a part of `room` bytes.
fn pack(
    (n, t, post): Heading,
    points: &[u32],
    kinds: &[u8],
    draws: &[u32],
    room: usize,
) -> (u8, Vec<u8>) {
    let mut out = vec![UNTOUCHED; room];
    let k = if points.len() == 2 * n { 2 } else { 1 };
    let written = REFERENCE.write_pack(n, t, k, post, points, kinds, draws, &mut out);
    assert!(out[written.length..].iter().all(|&byte| byte == UNTOUCHED));
    assert!(written.refusal == 0 || written.length == 0);
    out.truncate(written.length);
    (written.refusal, out)
}

/// The refusal for the hand-reckoned station.
#[track_caller]
fn assert_refused_pack(points: &[u32], kinds: &[u8], draws: &[u32], number: u8) {
    assert_eq!(pack((3, 1, 1), points, kinds, draws, 10_000).0, number);
}

#[test]
fn the_hand_reckoned_posts() {
    let kinds = kinds(&[(95, 1), (4, 3)]);
    // l = 2 + 9z and l' = 5 + z; the third draw begins with f's second coefficient.
    let v = &HAND_DRAW[2..];
    let draws = [&[2, 9], v, &[5, 1], v, &[8], v, &HAND_DRAW].concat();
    let triple = "1,2,5,5,17,12,23,34,1,2,5,5,17,7,10,13,1,2,5,5,17,19,29,39";
    let file = format!("S,3,1,1,2\nT,4,{triple}\nR,95,1,2,5,5,17,12,18,24\n");
    assert_eq!(pack((3, 1, 1), &HAND_POINTS, &kinds, &draws, 200), (0, file.clone().into_bytes()));
    let length = file.len();
    assert_eq!(pack((3, 1, 1), &HAND_POINTS, &kinds, &draws, length).1, file.as_bytes());
    assert_eq!(pack((3, 1, 1), &HAND_POINTS, &kinds, &draws, length - 1).0, 12);
    assert_eq!(pack((3, 1, 1), &HAND_POINTS, &kinds, &draws, 0).0, 12);
    let third = pack((3, 1, 3), &HAND_POINTS, &kinds, &draws, 200).1;
    assert!(third.starts_with(b"S,3,1,3,5\nT,4,5,6,11,8,35,"));
    assert!(third.ends_with(b"\nR,95,5,6,11,8,35,12,18,24\n"));
}

#[test]
fn a_file_without_rows_is_its_start() {
    let empty = pack((3, 2, 2), &HAND_POINTS, &[0; 96], &[], 10);
    assert_eq!(empty, (0, b"S,3,2,2,3\n".to_vec()));
    assert_eq!(pack((3, 2, 2), &HAND_POINTS, &[0; 96], &[], 9), (12, vec![]));
}

/// The session and rows of a post that loads straight from the draws.
fn loaded(shape: Shape, points: &[u32], post: usize, rows: &[(usize, Vec<SharedRow>)]) -> State {
    let (n, t, k) = (shape.posts(), shape.threshold(), shape.points());
    let own = shape.points_of(points, post);
    let (point, second) = (own[0], own[k - 1]);
    let blank = State::new(Session::BLANK, vec![0; shape.all_rows()]);
    let mut state = assert_taken(&blank, Call::NewSession { n, t, post, k, point, second }).state;
    for (row, shared) in rows {
        let (row, of_all): (_, Vec<u32>) = (*row, factory(shape, points, shared));
        let own = |packs: &[u32]| packs[(post - 1) * shape.row()..][..shape.row()].to_vec();
        let pack: Vec<u32> = of_all.chunks(shape.row_packs()).flat_map(own).collect();
        let call = match shared.len() {
            1 => Call::LoadRow { row, pack },
            _ => Call::LoadTriple { first: row, pack },
        };
        state = assert_taken(&state, call).state;
    }
    state
}

/// All posts' rows of a row or a triple, from the factory.
fn factory(shape: Shape, points: &[u32], shared: &[SharedRow]) -> Vec<u32> {
    let (n, t, k) = (shape.posts(), shape.threshold(), shape.points());
    let mut out = vec![0; shared.len() * shape.row_packs()];
    let draw = draw(shared);
    let refusal = match shared.len() {
        1 => REFERENCE.factory_row(n, t, k, points, &draw, &mut out),
        _ => REFERENCE.factory_triple(n, t, k, points, &draw, &mut out),
    };
    assert_eq!(refusal, 0);
    out
}

fn draw(shared: &[SharedRow]) -> Vec<u32> {
    match shared {
        [l, l2, l3] => SharedRow::triple_draw(&[l.clone(), l2.clone(), l3.clone()]),
        _ => shared[0].draw(),
    }
}

/// "Feeding the file to the street program gives the session and rows that loading straight from the
/// draw gives, for every post and n up to 32."
#[test]
fn the_program_reads_the_file() {
    for seed in 0..40 {
        let mut rng = Rng::new(seed);
        let shape = street_shape(&mut rng);
        let (n, t) = (shape.posts(), shape.threshold());
        let points = check_points(&mut rng, shape);
        let mut rows = vec![];
        let mut row = rng.below(4);
        while row < 96 {
            let triple = row <= 93 && rng.one_in(2);
            let shared = match triple {
                true => SharedRow::random_triple(&mut rng, shape).to_vec(),
                false => vec![SharedRow::random(&mut rng, shape)],
            };
            rows.push((row, shared));
            row += if triple { 3 } else { 1 } + rng.below(if seed % 4 == 0 { 1 } else { 60 });
        }
        let kind = |(row, shared): &(usize, Vec<SharedRow>)| (*row, shared.len() as u8);
        let kinds = kinds(&rows.iter().map(kind).collect::<Vec<_>>());
        let draws: Vec<u32> = rows.iter().flat_map(|(_, shared)| draw(shared)).collect();
        for post in [1, rng.between(1, n), n] {
            let (refusal, file) = pack((n, t, post), &points, &kinds, &draws, 200_000);
            assert_eq!(refusal, 0);
            let mut program = Street::<MODULUS>::default();
            for line in file.split_inclusive(|&byte| byte == b'\n') {
                assert_eq!(program.line(line), Ok(Default::default()));
            }
            let (session, numbers) = program.state().unwrap();
            let straight = loaded(shape, &points, post, &rows);
            assert_eq!(session, straight.session);
            assert_eq!(numbers, straight.rows);
        }
    }
}

/// The library writes files for more posts than the program takes.
#[test]
fn a_file_for_255_posts() {
    let mut rng = Rng::new(9);
    let shape = Shape::checked(255, 2, 1).unwrap();
    let points = check_points(&mut rng, shape);
    let shared = SharedRow::random(&mut rng, shape);
    let (refusal, file) = pack((255, 2, 255), &points, &kinds(&[(7, 1)]), &shared.draw(), 9000);
    assert_eq!(refusal, 0);
    let row =
        shared.row_of(255, &points[254..]).iter().map(|x| format!(",{x}")).collect::<String>();
    assert_eq!(file, format!("S,255,2,255,{}\nR,7{row}\n", points[254]).as_bytes());
    assert_eq!(REFERENCE.street(&file), b"line,refusal,value\n1,1,0\n2,1,0\n");
}

#[test]
fn refusals_1_to_5_in_order() {
    let bad = ([0, 3, 5].as_slice(), [9u8; 95].as_slice(), [MODULUS].as_slice());
    for (heading, number) in [
        ((1, 0, 0), 1),
        ((256, 1, 1), 1),
        ((3, 0, 0), 2),
        ((3, 3, 1), 2),
        ((3, 1, 0), 3),
        ((3, 1, 4), 3),
        ((3, 1, 1), 4),
    ] {
        assert_eq!(pack(heading, bad.0, bad.1, bad.2, 0).0, number);
    }
    assert_refused_pack(&[2, 3, 5, MODULUS], bad.1, bad.2, 4);
    assert_refused_pack(&[0], bad.1, bad.2, 4);
    assert_refused_pack(&[], &[0; 96], &[], 5);
    assert_refused_pack(&[2, 3], &[0; 96], &[], 5);
    assert_refused_pack(&[2, 3, 5, 7], &[0; 96], &[], 5);
    assert_refused_pack(&HAND_POINTS, &[0; 95], &[], 5);
    assert_refused_pack(&HAND_POINTS, &[0; 97], &[], 5);
    assert_refused_pack(&HAND_POINTS, &[], &[], 5);
}

/// "Their stated length counts each 1 and 3, rightly placed or not."
#[test]
fn the_length_of_the_draws() {
    for (some, length, number) in [
        (vec![], 0, 0),
        (vec![(0, 1)], 8, 0),
        (vec![(93, 3)], 23, 0),
        (vec![(0, 1), (5, 1), (10, 3)], 39, 0),
        (vec![(94, 3)], 23, 6),
        (vec![(95, 3), (94, 3)], 46, 6),
        (vec![(50, 3), (51, 1)], 31, 7),
        (vec![(50, 3), (51, 3)], 46, 7),
        (vec![(50, 2), (51, 255)], 0, 8),
    ] {
        let kinds = kinds(&some);
        assert_refused_pack(&HAND_POINTS, &kinds, &vec![1; length], number);
        assert_refused_pack(&HAND_POINTS, &kinds, &vec![MODULUS; length + 1], 5);
        if length > 0 {
            assert_refused_pack(&HAND_POINTS, &kinds, &vec![MODULUS; length - 1], 5);
        }
    }
}

#[test]
fn refusals_6_7_8_12_in_order() {
    let refusal = |some: &[(usize, u8)], number: u32, room: usize| {
        let kinds = kinds(some);
        let drawn = |&kind: &u8| [0, 8, 0, 23].get(usize::from(kind)).copied().unwrap_or(0);
        let length = kinds.iter().map(drawn).sum();
        pack((3, 1, 1), &HAND_POINTS, &kinds, &vec![number; length], room).0
    };
    // A 3 above row 93, also inside a triple and behind everything else.
    assert_eq!(refusal(&[(0, 3), (1, 1), (2, 9), (94, 3)], MODULUS, 0), 6);
    assert_eq!(refusal(&[(93, 3), (95, 3)], MODULUS, 0), 6);
    // A kind other than 0 inside a triple, an unknown one too.
    for kind in [1, 2, 3, 4, 255] {
        assert_eq!(refusal(&[(20, 9), (30, 3), (31, kind)], MODULUS, 0), 7);
        assert_eq!(refusal(&[(20, 9), (30, 3), (32, kind)], MODULUS, 0), 7);
        assert_eq!(refusal(&[(93, 3), (95, kind)], MODULUS, 0), if kind == 3 { 6 } else { 7 });
    }
    for kind in [2, 4, 5, 6, 7, 255] {
        assert_eq!(refusal(&[(95, kind)], 1, 0), 8);
    }
    assert_eq!(refusal(&[(30, 3), (33, 3), (29, 1), (36, 1)], 1, 10_000), 0);
    assert_eq!(refusal(&[(30, 1)], MODULUS, 0), 8);
    assert_eq!(refusal(&[(30, 1)], MODULUS - 1, 10), 12);
    for place in 0..31 {
        let mut draws = vec![1; 31];
        draws[place] = MODULUS;
        assert_refused_pack(&HAND_POINTS, &kinds(&[(0, 1), (1, 3)]), &draws, 8);
    }
}
