//! Every case of "Reckoned by hand", and the mistakes that pass a quick look.

mod common;

use common::*;
use reference::random::{Call, SharedRow};
use reference::{Library, Shape, MODULUS, REFERENCE};

fn hand_packs() -> Vec<u32> {
    let mut out = vec![0; 24];
    assert_eq!(REFERENCE.factory_row(3, 1, 1, &HAND_POINTS, &HAND_DRAW, &mut out), 0);
    out
}

/// After P1, at `post`, with what posts `senders` sent.
fn open_hundred(post: usize, senders: &[(usize, [u32; 2])]) -> (u8, u32) {
    let mut station = Station::hand();
    station.share(0, &hand_row([7, 4]), 100);
    let mut messages = vec![None; 3];
    for (sender, message) in senders {
        messages[sender - 1] = Some(message.to_vec());
    }
    let record = record(station.shape, &messages);
    let outcome = Call::Open { row: 0, record }.perform(&REFERENCE, &station.posts[post - 1]);
    (outcome.refusal, outcome.value)
}

#[test]
fn p1_p2_the_dealers_number() {
    assert_eq!(REFERENCE.dealer_number(100, 7), (0, 93));
    assert_eq!(REFERENCE.dealer_number(3, 7), (0, 2147483643));
}

#[test]
fn p3_p4_the_packs() {
    let packs = hand_packs();
    assert_eq!(packs[..8], [1, 2, 5, 5, 17, 12, 18, 24]);
    assert_eq!(packs[16..], [5, 6, 11, 8, 35, 12, 18, 24]);
}

#[test]
fn p5_p6_post_1_accepts_the_true_polynomial_only() {
    assert_eq!(open_hundred(1, &[(2, [3, 1])]), (0, 100));
    assert_eq!(open_hundred(1, &[(2, [6, 0])]), (9, 0));
}

#[test]
fn p7_a_false_polynomial_that_only_post_1_accepts() {
    assert_eq!(open_hundred(1, &[(2, [1, 2])]), (0, 98));
    assert_eq!(open_hundred(3, &[(2, [1, 2])]), (9, 0));
}

#[test]
fn p8_shares_and_what_pairs_of_them_give() {
    let mut station = Station::hand();
    station.share(0, &hand_row([7, 4]), 100);
    let shares = station.posts.iter().map(|state| {
        let row = &state.rows[..8];
        row[5 + state.session.post - 1] - row[0]
    });
    assert_eq!(shares.collect::<Vec<_>>(), [104, 108, 112]);
    assert_eq!(open_hundred(1, &[(2, [3, 1])]), (0, 100));
    assert_eq!(open_hundred(2, &[(3, [5, 6])]), (0, 100));
    assert_eq!(open_hundred(3, &[(2, [3, 1])]), (0, 100));
}

/// The number that all opening posts read from rows given in the clear.
fn number_of_masks(shape: Shape, masks: &[Message], sums: [u32; 3]) -> u32 {
    assert_eq!(shape.shares_needed(), 2);
    let share = |post: usize| {
        let constant = masks[post - 1].as_ref().unwrap()[0];
        (u64::from(sums[post - 1]) + u64::from(MODULUS) - u64::from(constant)) % u64::from(MODULUS)
    };
    ((2 * share(1) + u64::from(MODULUS) - share(2)) % u64::from(MODULUS)) as u32
}

#[test]
fn p9_a_product() {
    let mut station = Station::hand();
    let triple = [hand_row([2, 9]), hand_row([5, 1]), hand_row([10, 8])];
    station.share(0, &hand_row([11, 3]), 6);
    station.share(1, &hand_row([13, 5]), 7);
    station.load_triple(2, &triple);
    let sums = |row: usize, pad: usize| {
        let rows = &station.posts[0].rows;
        [0, 1, 2].map(|j| {
            let (a, l) = (rows[8 * row + 5 + j], rows[8 * pad + 5 + j]);
            (a + MODULUS - l) % MODULUS
        })
    };
    let (left_sums, right_sums) = (sums(0, 2), sums(1, 3));
    let [left, right] = station.masks(0, 1, 2);
    assert_eq!(number_of_masks(station.shape, &left, left_sums), 4);
    assert_eq!(number_of_masks(station.shape, &right, right_sums), 2);
    let records = [left, right].map(|masks| record(station.shape, &masks));
    station.finish(2, &records);
    let session = &station.posts[0].session;
    assert_eq!((session.y[2], session.y2[2]), (4, 2));
    assert_eq!(session.marks[2..5], [6, 6, 2]);
    assert_eq!(station.open(4), [42, 42, 42]);
}

#[test]
fn p10_and_its_neighbours_lines() {
    let mut out = [77; 4];
    let mut part = [0; 16];
    let line = b"D,0,93\n";
    let read = REFERENCE.read(3, 1, 1, line, &mut out);
    assert_eq!((read.refusal, read.letter, read.row, read.post), (0, b'D', 0, 0));
    assert_eq!(out, [93, 0, 0, 0]);
    let written = REFERENCE.write_deal(3, 1, read.row, out[0], &mut part);
    assert_eq!((written.refusal, written.length), (0, 7));
    assert_eq!(&part[..7], line);
    assert_eq!(REFERENCE.read(3, 1, 1, b"D,0,093\n", &mut out).refusal, 10);
    assert_eq!(REFERENCE.read(3, 1, 1, b"D,0,2147483646\n", &mut out).refusal, 0);
    assert_eq!(out[0], MODULUS - 1);
    assert_eq!(REFERENCE.read(3, 1, 1, b"D,0,2147483647\n", &mut out).refusal, 11);
    assert_eq!(out[0], MODULUS - 1);
}

#[test]
fn sizes_of_a_station() {
    let refusal = |n, t| REFERENCE.new_session(n, t, 1, 1, 1, 0).refusal;
    assert_eq!((refusal(255, 5), refusal(256, 5)), (0, 1));
    assert_eq!((refusal(32, 5), refusal(33, 5)), (0, 0));
    assert_eq!((refusal(2, 1), refusal(1, 1)), (0, 1));
    assert_eq!((refusal(9, 8), refusal(9, 0), refusal(9, 9)), (0, 2, 2));
}

#[test]
fn a_plus_its_negative_opens_to_zero() {
    let mut station = Station::hand();
    station.share(0, &hand_row([7, 4]), 100);
    station.each(|_| Call::Linear { dest: 95, a: 0, b: 0, scale: MODULUS - 1, fee: 0 });
    assert_eq!(station.open(95), [0, 0, 0]);
}

#[test]
fn row_95_is_taken_and_96_refused() {
    let station = Station::hand();
    let pack = hand_packs()[..8].to_vec();
    let state = &station.posts[0];
    assert_taken(state, Call::LoadRow { row: 95, pack: pack.clone() });
    assert_refused(state, Call::LoadRow { row: 96, pack }, 6);
}

#[test]
fn an_empty_record_gives_9() {
    assert_eq!(open_hundred(1, &[]), (9, 0));
}

#[test]
fn zeros_at_the_top_are_sent_too() {
    let mut station = Station::new(3, 2, &HAND_POINTS);
    let shared =
        SharedRow { f: vec![7, 0, 0], v: vec![vec![4, 0, 0], vec![0, 0, 0], vec![1, 1, 0]] };
    station.share(0, &shared, 5);
    assert_eq!(station.messages(0)[0], Some(vec![4, 0, 0]));
    let mut part = [b'x'; 16];
    let written = REFERENCE.write_opening(3, 2, 1, 0, 1, &[4, 0, 0], &mut part);
    assert_eq!(written.length, 12);
    assert_eq!(&part, b"O,0,1,4,0,0\nxxxx");
}

/// "Adding y y' to the polynomial's constant too, so it counts nothing."
#[test]
fn a_product_whose_constant_got_y_y_too_opens_to_something_else() {
    let mut station = Station::hand();
    let triple = [hand_row([2, 9]), hand_row([5, 1]), hand_row([10, 8])];
    station.share(0, &hand_row([11, 3]), 6);
    station.share(1, &hand_row([13, 5]), 7);
    station.load_triple(2, &triple);
    station.multiply(0, 1, 2);
    for state in &mut station.posts {
        let row = &mut state.rows[4 * 8..][..8];
        for place in [0, 2, 3, 4] {
            row[place] = (row[place] + 8) % MODULUS;
        }
    }
    assert_eq!(station.open(4), [34, 34, 34]);
}

/// "The longest line has 712 bytes" for 32 posts, "5,619 bytes" for 255.
#[test]
fn the_longest_broadcast_line() {
    for (n, length) in [(32, 712), (255, 5619)] {
        let (t, mut part) = (n - 1, vec![0; length + 1]);
        let numbers = vec![MODULUS - 1; 2 * n];
        let written = REFERENCE.write_masks(n, t, 1, 93, n, &numbers, &mut part);
        assert_eq!((written.refusal, written.length), (0, length));
        let mut out = vec![0; 2 * n];
        assert_eq!(REFERENCE.read(n, t, 1, &part[..length], &mut out).refusal, 0);
        assert_eq!(out, numbers);
        let short = REFERENCE.write_masks(n, t, 1, 93, n, &numbers, &mut part[..length - 1]);
        assert_eq!((short.refusal, short.length), (12, 0));
    }
}
