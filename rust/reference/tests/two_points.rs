//! Request (ix): two check points a post, beside one.

mod common;

use common::program::{answers, refusals};
use common::*;
use reference::random::{Call, Damage, SharedRow, State};
use reference::{Library, Reference, Session, Shape, MODULUS, REFERENCE};

/// n = 3, t = 1: check points 2 and 4, 3 and 6, 5 and 7; f = 7 + 4z; v1 = 1 + 2z + z²,
/// v2 = 3 + z + 2z², v3 = 5 + 6z + z².
const POINTS: [u32; 6] = [2, 4, 3, 6, 5, 7];

fn hand_row_of_two() -> SharedRow {
    SharedRow { f: vec![7, 4], v: vec![vec![1, 2, 1], vec![3, 1, 2], vec![5, 6, 1]] }
}

/// Post 1's row: both check values of each sender follow one another.
const ROW: [u32; 12] = [1, 2, 1, 9, 25, 13, 39, 21, 45, 12, 18, 24];

#[test]
fn the_factory_gives_both_check_values() {
    let mut out = [0; 36];
    let draw = hand_row_of_two().draw();
    assert_eq!(draw.len(), 11);
    assert_eq!(REFERENCE.factory_row(3, 1, 2, &POINTS, &draw, &mut out), 0);
    assert_eq!(out[..12], ROW);
    assert_eq!(out[24..], [5, 6, 1, 36, 64, 58, 108, 60, 96, 12, 18, 24]);
}

/// A station in which row 0 holds 100.
fn hundred() -> Station {
    let mut station = Station::new(3, 1, &POINTS);
    station.share(0, &hand_row_of_two(), 100);
    station
}

fn opened(state: &State, messages: [Option<[u32; 3]>; 3]) -> (u8, u32) {
    let messages = messages.map(|message| message.map(|numbers| numbers.to_vec()));
    let record = record(Shape::checked(3, 1, 2).unwrap(), &messages);
    let outcome = Call::Open { row: 0, record }.perform(&REFERENCE, state);
    (outcome.refusal, outcome.value)
}

/// "A sender is accepted when both values match."
#[test]
fn both_values_must_match() {
    let state = hundred().posts.remove(0);
    assert_eq!(opened(&state, [None, Some([3, 1, 2]), None]), (0, 100));
    // 13 at 2 only, 39 at 4 only.
    assert_eq!(opened(&state, [None, Some([1, 2, 2]), None]), (9, 0));
    assert_eq!(opened(&state, [None, Some([3, 9, 0]), None]), (9, 0));
    assert_eq!(opened(&state, [None, Some([13, 0, 0]), None]), (9, 0));
    // (z − 2)(z − 4) more: both values match, and the share is false.
    let false_2 = Some([11, MODULUS - 5, 3]);
    assert_eq!(opened(&state, [None, false_2, None]), (0, 108));
    assert_eq!(opened(&state, [None, false_2, Some([5, 6, 1])]), (13, 0));
}

/// "A false polynomial passes for at most 4 × t × t of the pairs of points": over 11 elements, one
/// that differs by (z − 3)(z − 8) passes for the pairs of 3 and 8, equal ones too.
#[test]
fn pairs_of_points_that_a_false_polynomial_passes_for() {
    const SMALL: Reference<11> = Reference;
    let shape = Shape::checked(2, 1, 2).unwrap();
    let draw = [7, 4, 1, 2, 1, 3, 1, 2];
    let (mut passed, mut tried) = (vec![], 0);
    for point in 1..11 {
        for second in 1..11 {
            let mut packs = vec![0; shape.row_packs()];
            let points = [point, second, 1, 1];
            assert_eq!(SMALL.factory_row(2, 1, 2, &points, &draw, &mut packs), 0);
            let mut rows = vec![0; shape.all_rows()];
            let s = SMALL.new_session(2, 1, 1, 2, point, second).session;
            let s = SMALL.load_row(s, &mut rows, 0, &packs[..shape.row()]).session;
            let s = SMALL.deal(s, &mut rows, 0, 5).session;
            // 3 + z + 2z² plus z² − 11z + 24.
            let record = [0, 0, 0, 0, 1, 27 % 11, 1, 3];
            let refusal = SMALL.open(s, &rows, 0, &record).refusal;
            tried += 1;
            if refusal == 0 {
                passed.push((point, second));
            }
        }
    }
    assert_eq!(tried, 100);
    assert_eq!(passed, [(3, 3), (3, 8), (8, 3), (8, 8)]);
}

#[test]
fn new_sessions() {
    let refusal = |k, point, second| REFERENCE.new_session(3, 1, 3, k, point, second).refusal;
    for k in [0, 3, 4, 256, 257, 258, usize::MAX] {
        assert_eq!(refusal(k, 1, 1), 4);
    }
    for bad in [0, MODULUS, u32::MAX] {
        assert_eq!((refusal(2, bad, 1), refusal(2, 1, bad)), (4, 4));
        assert_eq!((refusal(1, bad, 1), refusal(1, 1, bad)), (4, 0));
    }
    assert_eq!(refusal(2, MODULUS - 1, MODULUS - 1), 0);
    assert_eq!(REFERENCE.new_session(3, 1, 4, 3, 0, 0).refusal, 3);
    let one = REFERENCE.new_session(3, 1, 3, 1, 5, 6).session;
    assert_eq!((one.k, one.point, one.second), (1, 5, 0));
    let two = REFERENCE.new_session(3, 1, 3, 2, 5, 6).session;
    assert_eq!((two.k, two.point, two.second), (2, 5, 6));
    assert_eq!(REFERENCE.new_session(3, 1, 3, 2, 5, 0).session, Session::BLANK);
}

/// Every length that held t+1 for a message holds 2t+1.
#[test]
fn lengths() {
    let mut station = hundred();
    let triple = [7, 4, 28].map(|f0| SharedRow { f: vec![f0, 1], ..hand_row_of_two() });
    station.load_triple(10, &triple);
    let state = station.posts[0].clone();
    assert_eq!(state.rows.len(), 96 * 12);
    let calls = |by: usize| {
        [
            Call::LoadRow { row: 50, pack: vec![1; 11 + by] },
            Call::LoadTriple { first: 50, pack: vec![1; 35 + by] },
            Call::OpeningMessage { row: 0, caller: 3, out: 2 + by },
            Call::Masks { a: 0, b: 0, first: 10, out: 5 + by },
        ]
    };
    for (by, refusal) in [(0, 5), (1, 0), (2, 5)] {
        for call in calls(by) {
            assert_eq!(call.perform(&REFERENCE, &state).refusal, refusal, "{call:?}");
        }
    }
    for (length, refusal) in [(11, 5), (12, 9), (13, 5)] {
        assert_refused(&state, Call::Open { row: 0, record: vec![0; length] }, refusal);
    }
    for damage in [Damage::Length(96 * 12 - 1), Damage::Points(1)] {
        let mut wrong = state.clone();
        damage.apply(&mut wrong);
        assert_refused(&wrong, Call::Deal { row: 0, c: 0 }, 5);
    }
    for damage in [Damage::Points(3), Damage::Second(0), Damage::Second(MODULUS)] {
        let mut wrong = state.clone();
        damage.apply(&mut wrong);
        assert_refused(&wrong, Call::Deal { row: 96, c: MODULUS }, 4);
    }
}

/// k "is judged as 4, behind 3 and before 5".
#[test]
fn calls_without_a_session() {
    let mut none = [0u32; 0];
    for k in [0, 3, usize::MAX] {
        assert_eq!(REFERENCE.factory_row(3, 0, k, &[], &[], &mut none), 2);
        assert_eq!(REFERENCE.factory_row(3, 1, k, &POINTS, &[], &mut none), 4);
        assert_eq!(REFERENCE.factory_triple(3, 1, k, &[], &[], &mut none), 4);
        assert_eq!(REFERENCE.read(3, 3, k, b"", &mut none).refusal, 2);
        assert_eq!(REFERENCE.read(3, 1, k, b"", &mut none).refusal, 4);
        assert_eq!(REFERENCE.write_opening(3, 1, k, 96, 0, &[], &mut []).refusal, 3);
        assert_eq!(REFERENCE.write_opening(3, 1, k, 96, 3, &[], &mut []).refusal, 4);
        assert_eq!(REFERENCE.write_masks(3, 1, k, 96, 4, &[], &mut []).refusal, 3);
        assert_eq!(REFERENCE.write_masks(3, 1, k, 96, 1, &[], &mut []).refusal, 4);
        assert_eq!(REFERENCE.write_pack(3, 1, k, 0, &[], &[], &[], &mut []).refusal, 3);
        assert_eq!(REFERENCE.write_pack(3, 1, k, 1, &[], &[], &[], &mut []).refusal, 4);
    }
    assert_eq!(REFERENCE.factory_row(3, 1, 2, &[2, 4, 3, 6, 5, 0], &[], &mut none), 4);
    assert_eq!(REFERENCE.factory_row(3, 1, 2, &POINTS[..3], &[], &mut none), 5);
    assert_eq!(REFERENCE.factory_row(3, 1, 1, &POINTS, &[], &mut none), 5);
    assert_eq!(REFERENCE.read(3, 1, 2, b"D,0,1\n", &mut [0; 4]).refusal, 5);
    assert_eq!(REFERENCE.read(3, 1, 2, b"D,0,1\n", &mut [0; 6]).refusal, 0);
    assert_eq!(REFERENCE.read(3, 1, 2, b"O,0,1,1,1\n", &mut [0; 6]).refusal, 10);
    assert_eq!(REFERENCE.read(3, 1, 2, b"O,0,1,1,1,1\n", &mut [0; 6]).refusal, 0);
}

/// "The longest broadcast line, at 255 posts, has 11,207 bytes."
#[test]
fn the_longest_broadcast_line() {
    let mut part = vec![0; 11_207];
    let numbers = vec![MODULUS - 1; 1018];
    let written = REFERENCE.write_masks(255, 254, 2, 93, 255, &numbers, &mut part);
    assert_eq!((written.refusal, written.length), (0, 11_207));
    let mut out = vec![0; 1018];
    assert_eq!(REFERENCE.read(255, 254, 2, &part, &mut out).refusal, 0);
    assert_eq!(out, numbers);
}

const START: &str = "W,3,1,1,2,4\nR,0,1,2,1,9,25,13,39,21,45,12,18,24\nD,0,93\n";

#[test]
fn a_session_with_two_points_over_the_street() {
    let opened = answers(format!("{START}O,0,2,3,1\nO,0,2,3,1,2\nG,0\n").as_bytes());
    assert_eq!(opened, [(0, 0), (0, 0), (0, 0), (10, 0), (0, 0), (0, 100)]);
}

/// "By all the rules of an `S`": 10, then 1 to 4, and the dash.
#[test]
fn a_start_with_two_points() {
    for (line, refusal) in [
        ("W", 10),
        ("W\n", 10),
        ("W,3,1,1,2\n", 10),
        ("W,3,1,1,2,4,5\n", 10),
        ("W,3,1,1,2,04\n", 10),
        ("W,3,1,1,2,4", 10),
        ("S,3,1,1,2,4\n", 10),
        ("W,33,40,40,0,0\n", 1),
        ("W,1,1,1,1,1\n", 1),
        ("W,3,3,4,0,0\n", 2),
        ("W,3,2,4,0,0\n", 3),
        ("W,3,2,3,0,1\n", 4),
        ("W,3,2,3,1,0\n", 4),
        ("W,3,2,3,1,2147483647\n", 4),
        ("W,3,2,3,1,4294967297\n", 4),
        ("W,3,2,3,4294967297,1\n", 4),
        ("W,3,-,3,5,5\n", 0),
        ("W,32,31,32,2147483646,1\n", 0),
        ("w,3,1,1,2,4\n", 1),
        ("WW,3,1,1,2,4\n", 1),
        ("W\r\n", 1),
    ] {
        assert_eq!(refusals(line.as_bytes()), [refusal], "{line:?}");
    }
    let overlong = "W,".to_string() + &"1".repeat(9000) + "\n";
    assert_eq!(refusals(overlong.as_bytes()), [10]);
    // "A second start line of either letter gets 10."
    let starts = "W,3,3,1,1,1\nS,3,1,1,1\nW,3,1,1,1,1\nS,3,1,1,1\nW\n";
    assert_eq!(refusals(starts.as_bytes()), [2, 0, 10, 10, 10]);
    assert_eq!(refusals(b"W,3,1,1,1,1\nW,3,1,1,1,1\nS,3,1,1,1\n"), [0, 10, 10]);
}

/// A pack file with two points starts with a `W`.
#[test]
fn a_pack_file() {
    let mut kinds = [0; 96];
    kinds[0] = 1;
    let mut out = vec![0; 100];
    let draw = hand_row_of_two().draw();
    let written = REFERENCE.write_pack(3, 1, 2, 1, &POINTS, &kinds, &draw, &mut out);
    assert_eq!(written.refusal, 0);
    assert_eq!(&out[..written.length], START.replace("D,0,93\n", "").as_bytes());
}
