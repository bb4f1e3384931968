//! Request (iv): accepted posts must agree.

mod common;

use common::program::answers;
use common::*;
use reference::random::{street_shape, unnoticed, Call, Rng, SharedRow, State};
use reference::{MODULUS, REFERENCE};

fn opened(state: &State, row: usize, record: Vec<u32>) -> (u8, u32) {
    let outcome = Call::Open { row, record }.perform(&REFERENCE, state);
    if outcome.refusal != 0 {
        assert_eq!((outcome.value, &outcome.state), (0, state));
    }
    (outcome.refusal, outcome.value)
}

/// After P1, at `post`, with what the three posts sent.
fn open_hundred(post: usize, messages: [Option<[u32; 2]>; 3]) -> (u8, u32) {
    let mut station = Station::hand();
    station.share(0, &hand_row([7, 4]), 100);
    let messages = messages.map(|message| message.map(|numbers| numbers.to_vec()));
    let record = record(station.shape, &messages);
    opened(&station.posts[post - 1], 0, record)
}

const TRUE_2: Option<[u32; 2]> = Some([3, 1]);
const TRUE_3: Option<[u32; 2]> = Some([5, 6]);

/// "A false one among them went through while a later honest post contradicted it."
#[test]
fn p7s_false_polynomial_is_contradicted_by_post_3() {
    let false_2 = Some([1, 2]);
    assert_eq!(open_hundred(1, [None, false_2, None]), (0, 98));
    assert_eq!(open_hundred(1, [None, false_2, TRUE_3]), (13, 0));
    // Post 3 rejects it, and opens with the others.
    assert_eq!(open_hundred(3, [None, false_2, None]), (9, 0));
    assert_eq!(open_hundred(3, [Some([1, 2]), false_2, None]), (0, 100));
}

/// A false one behind the lowest t+1 is seen too: at w1 = 2, 17 = 5 + 6·2 = 1 + 8·2.
#[test]
fn a_false_share_behind_the_lowest_ones() {
    assert_eq!(open_hundred(1, [None, TRUE_2, TRUE_3]), (0, 100));
    assert_eq!(open_hundred(1, [None, TRUE_2, Some([1, 8])]), (13, 0));
    // One that is rejected is not asked.
    assert_eq!(open_hundred(1, [None, TRUE_2, Some([1, 9])]), (0, 100));
}

/// With fewer than t+1 true ones, lies that agree with each other go through.
#[test]
fn lies_that_agree() {
    assert_eq!(open_hundred(1, [None, Some([1, 2]), Some([1, 8])]), (0, 98));
}

/// Another polynomial with the true constant has the true share.
#[test]
fn a_false_polynomial_with_a_true_share() {
    let mut station = Station::new(4, 2, &[2, 3, 5, 7]);
    let v = (1..5).map(|i| vec![i, 2 * i, 3]).collect();
    station.share(0, &SharedRow { f: vec![7, 4, 1], v }, 100);
    let mut messages = station.messages(0);
    for (place, expected) in [(1, (0, 100)), (0, (13, 0))] {
        messages[3] = Some(unnoticed(&[4, 8, 3], place, 9, &[2]));
        let record = record(station.shape, &messages);
        assert_eq!(opened(&station.posts[0], 0, record), expected);
    }
}

/// With t = n − 1 there is no further share, and no 13.
#[test]
fn all_posts_needed() {
    let mut station = Station::new(3, 2, &HAND_POINTS);
    let v = (1..4).map(|i| vec![i, 2 * i, 3]).collect();
    station.share(0, &SharedRow { f: vec![7, 4, 1], v }, 100);
    let mut messages = station.messages(0);
    messages[2] = Some(unnoticed(&[3, 6, 3], 0, 1, &[2]));
    let (refusal, value) = opened(&station.posts[0], 0, record(station.shape, &messages));
    assert_eq!(refusal, 0);
    assert_ne!(value, 100);
}

/// The furnished post 1, and records of the masks of triple 6: true, contradicted, too short, and
/// with a number p in the last block.
fn finish_cases() -> (State, [[Vec<u32>; 4]; 2]) {
    let (station, masks) = furnished();
    let cases = masks.map(|messages| {
        let mut lie = messages.clone();
        lie[2] = Some(unnoticed(lie[2].as_ref().unwrap(), 0, 1, &HAND_POINTS[..1]));
        let mut no_element = messages.clone();
        no_element[2] = Some(vec![0, MODULUS]);
        let short = vec![messages[0].clone(), None, None];
        [messages, lie, short, no_element].map(|messages| record(station.shape, &messages))
    });
    (station.posts[0].clone(), cases)
}

/// "In either record of a finish, after 9."
#[test]
fn a_finish_checks_8_then_9_then_13_in_either_record() {
    let (state, [left, right]) = finish_cases();
    let (good, lie, short, no_element) = (0, 1, 2, 3);
    for (left_case, right_case, refusal) in [
        (good, good, 0),
        (lie, good, 13),
        (good, lie, 13),
        (lie, lie, 13),
        (lie, short, 9),
        (short, lie, 9),
        (short, good, 9),
        (lie, no_element, 8),
        (no_element, lie, 8),
        (no_element, short, 8),
    ] {
        let (record, record2) = (left[left_case].clone(), right[right_case].clone());
        let call = Call::OpenMasks { first: 6, record, record2 };
        if refusal == 0 {
            assert_taken(&state, call);
        } else {
            assert_refused(&state, call, refusal);
        }
    }
}

/// Random lies that the post accepts: with the own share and t others true, never a false number.
#[test]
fn with_enough_true_shares_an_opening_is_exact_or_refused_with_13() {
    let mut met = [0; 2];
    for seed in 0..300 {
        let mut rng = Rng::new(seed);
        let shape = street_shape(&mut rng);
        let (n, t) = (shape.posts(), shape.threshold());
        let mut station = Station::random(&mut rng, shape);
        let shared = SharedRow::random(&mut rng, station.shape);
        let secret = rng.element();
        station.share(3, &shared, secret);
        let mut messages = station.messages(3);
        let own = rng.between(1, n);
        let mut liars = n - t - 1;
        for post in (1..=n).filter(|&post| post != own) {
            if liars > 0 && rng.one_in(3) {
                liars -= 1;
                let place = rng.below(shape.points() * (t - 1) + 1);
                let multiple = rng.pick(&[0, 1, 7, MODULUS - 1]);
                let points = shape.points_of(&station.points, own);
                let forged = unnoticed(&shared.v[post - 1], place, multiple, points);
                messages[post - 1] = Some(forged);
            }
        }
        let record = record(station.shape, &messages);
        let answer = opened(&station.posts[own - 1], 3, record);
        assert!([(0, secret), (13, 0)].contains(&answer), "seed {seed}: {answer:?}");
        met[usize::from(answer.0 == 13)] += 1;
    }
    assert!(met.iter().all(|&count| count > 50), "{met:?}");
}

#[test]
fn the_street_program_answers_13() {
    let start = "S,3,1,1,2\nR,0,1,2,5,5,17,12,18,24\nD,0,93\n";
    let lines = "O,0,2,1,2\nG,0\nO,0,3,5,6\nG,0\nO,0,2,3,1\nG,0\n";
    let opened = answers(format!("{start}{lines}").as_bytes());
    assert_eq!(opened[3..], [(0, 0), (0, 98), (0, 0), (13, 0), (0, 0), (0, 100)]);
    // Triple and factor have the same polynomials, so that every mask is 0, as −2 + z is at w = 2.
    let row = "1,2,5,5,17,12,18,24";
    let triple = format!("{start}T,2,{row},{row},{row}\nX,0,0,2\nM,2,2,0,0,0,0\n");
    let lie = format!("{triple}M,2,3,0,0,2147483645,1\nF,2\nM,2,3,2147483645,1,0,0\nF,2\n");
    let lie = lie + "M,2,3,1,0,0,0\nF,2\nF,2\n";
    let refusals: Vec<u8> =
        answers(lie.as_bytes()).into_iter().map(|(refusal, _)| refusal).collect();
    assert_eq!(refusals[6..], [0, 13, 0, 13, 0, 0, 7]);
}
