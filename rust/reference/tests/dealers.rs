//! Request (xii): several dealers at one station.

mod common;

use common::*;
use reference::random::{Call, Damage, Rng, State};
use reference::{Library, DEALERS_STATE, MODULUS, REFERENCE};

fn place(dealer: usize, line: &str) -> Call {
    Call::PlaceLine { dealer, line: line.as_bytes().to_vec() }
}

/// Post 1 by hand, row 0 to row 3 raw, and these lines waiting.
fn waiting(lines: &[(usize, &str)]) -> State {
    let mut station = Station::hand();
    for row in 0..4 {
        station.load(row, &hand_row([7, 4]));
    }
    let start = station.posts.swap_remove(0);
    let placed = |state: State, &(dealer, line): &(usize, &str)| {
        assert_taken(&state, place(dealer, line)).state
    };
    lines.iter().fold(start, placed)
}

fn damaged(state: &State, damage: &[Damage]) -> State {
    let mut state = state.clone();
    damage.iter().for_each(|damage| damage.apply(&mut state));
    state
}

/// A last dealer outside 1..8, and places over 16 bytes, whichever they are.
fn bad_states() -> Vec<Damage> {
    let last = [0, 9, 10, 255].map(|byte| Damage::Dealers { place: 0, byte });
    let places = (0..8).flat_map(|place| {
        [17, 18, 255].map(|byte| Damage::Dealers { place: 1 + 17 * place, byte })
    });
    last.into_iter().chain(places).collect()
}

/// "A new state holds 8 as last served, then zeros."
#[test]
fn a_new_state() {
    assert_eq!(DEALERS_STATE, 137);
    let mut state = [77; 137];
    assert_eq!(REFERENCE.new_dealers(&mut state), 0);
    assert_eq!((state[0], &state[1..]), (8, &[0; 136][..]));
    for length in [0, 1, 136, 138, 274] {
        let mut state = vec![77; length];
        assert_eq!(REFERENCE.new_dealers(&mut state), 5);
        assert_eq!(state, vec![77; length]);
    }
}

#[test]
fn a_line_goes_to_its_place_and_what_is_behind_it_stays() {
    let (longest, shorter) = ("D,95,2147483646\n", "D,0,93\n");
    for dealer in 1..=8 {
        let empty = waiting(&[]);
        let filled = assert_taken(&empty, place(dealer, longest)).state;
        let mut expected = empty.dealers.clone();
        expected[17 * dealer - 16] = 16;
        expected[17 * dealer - 15..][..16].copy_from_slice(longest.as_bytes());
        assert_eq!(filled.dealers, expected);
        assert_eq!((filled.session, &filled.rows), (empty.session, &empty.rows));
        let mut freed = filled;
        freed.dealers[17 * dealer - 16] = 0;
        let again = assert_taken(&freed, place(dealer, shorter)).state.dealers;
        expected[17 * dealer - 16] = 7;
        expected[17 * dealer - 15..][..7].copy_from_slice(shorter.as_bytes());
        assert_eq!(again, expected);
    }
}

/// 5, 16, 17, then 10.
#[test]
fn refusals_of_a_placed_line_in_order() {
    let state = waiting(&[(3, "D,0,93\n")]);
    let (good, longer) = ("D,1,93\n", "D,95,2147483646\n\n");
    assert_eq!(longer.len(), 17);
    for length in [0, 136, 138] {
        let damage = [Damage::Dealers { place: 0, byte: 0 }, Damage::DealersLength(length)];
        assert_refused(&damaged(&state, &damage), place(9, ""), 5);
    }
    for damage in bad_states() {
        let bad = damaged(&state, &[damage]);
        assert_refused(&bad, place(1, good), 16);
        assert_refused(&bad, place(3, ""), 16);
    }
    for dealer in [0, 9, 255, 256, 257, (1 << 32) + 1, usize::MAX] {
        assert_refused(&state, place(dealer, good), 16);
        assert_refused(&state, place(dealer, ""), 16);
    }
    for line in [good, "", longer] {
        assert_refused(&state, place(3, line), 17);
    }
    for line in ["", longer, &"1".repeat(5000)] {
        assert_refused(&state, place(4, line), 10);
    }
    // Any other bytes are kept.
    for line in ["x", "\n", "O,0,1,1,1\n", "D,0,93", "\0\0\0\0\0\0\0\0\0\0\0\0\0\0\0\0"] {
        assert_taken(&state, place(4, line));
    }
}

/// Turns refused with 1 to 5 or 16 take no line.
#[test]
fn refusals_of_a_turn_that_takes_no_line() {
    let state = waiting(&[(3, "D,0,93\n")]);
    let order = [
        (Damage::Posts(1), 1),
        (Damage::Threshold(3), 2),
        (Damage::Post(4), 3),
        (Damage::Point(0), 4),
        (Damage::Length(0), 5),
        (Damage::Dealers { place: 0, byte: 9 }, 16),
    ];
    for from in 0..order.len() {
        let wrongs: Vec<Damage> = order[from..].iter().map(|&(damage, _)| damage).collect();
        assert_refused(&damaged(&state, &wrongs), Call::Turn, order[from].1);
    }
    for damage in [Damage::Points(0), Damage::Points(3), Damage::Point(MODULUS)] {
        assert_refused(&damaged(&state, &[damage]), Call::Turn, 4);
    }
    for length in [0, 136, 138] {
        assert_refused(&damaged(&state, &[Damage::DealersLength(length)]), Call::Turn, 5);
    }
    for damage in bad_states() {
        assert_refused(&damaged(&state, &[damage]), Call::Turn, 16);
        assert_refused(&damaged(&waiting(&[]), &[damage]), Call::Turn, 16);
    }
}

/// "If no line waits, the turn isn't refused and changes nothing."
#[test]
fn no_line_waits() {
    for last in 1..=8 {
        let state = damaged(&waiting(&[]), &[Damage::Dealers { place: 0, byte: last }]);
        let outcome = assert_taken(&state, Call::Turn);
        assert_eq!((outcome.value, outcome.state), (0, state));
    }
}

/// A turn does what a deal does, and frees the place; its bytes stay.
#[test]
fn a_turn_deals_the_line() {
    let state = waiting(&[(5, "D,0,93\n"), (2, "D,3,2147483643\n")]);
    let first = assert_taken(&state, Call::Turn);
    let mut expected = assert_taken(&state, Call::Deal { row: 3, c: 2_147_483_643 });
    (expected.state.dealers[0], expected.state.dealers[18]) = (2, 0);
    assert_eq!(first, expected);
    let second = assert_taken(&first.state, Call::Turn);
    let mut expected = assert_taken(&first.state, Call::Deal { row: 0, c: 93 });
    (expected.state.dealers[0], expected.state.dealers[69]) = (5, 0);
    assert_eq!(second, expected);
    assert_eq!(assert_taken(&second.state, Call::Turn).state, second.state);
}

/// "From the dealer after the one last served, going round, the first with a line waiting."
#[test]
fn turns_go_round() {
    for last in 1..=8u8 {
        for dealers in 1..256u32 {
            let waits = |dealer: u8| dealers & 1 << (dealer - 1) != 0;
            let mut state = vec![0; 137];
            state[0] = last;
            for dealer in (1..=8).filter(|&dealer| waits(dealer)) {
                state[17 * usize::from(dealer) - 16] = 1;
            }
            let next = (last + 1..=8).chain(1..=last).find(|&dealer| waits(dealer)).unwrap();
            let mut state = State { dealers: state, ..waiting(&[]) };
            let outcome = Call::Turn.perform(&REFERENCE, &state);
            state.dealers[0] = next;
            state.dealers[17 * usize::from(next) - 16] = 0;
            assert_eq!((outcome.refusal, outcome.value, outcome.state), (10, 0, state));
        }
    }
}

/// What a line gets once it is taken, for n = 3 and t = 1: row 0 is raw, row 4 is empty.
const TAKEN: &[(&str, u8)] = &[
    ("D,0,0\n", 0),
    ("D,0,2147483646\n", 0),
    ("D,0,2147483647\n", 11),
    ("D,0,9999999999\n", 11),
    ("D,95,2147483646\n", 7),
    ("D,96,1\n", 11),
    ("D,4,2147483647\n", 11),
    ("D,4,1\n", 7),
    ("D,0,093\n", 10),
    ("D,00,93\n", 10),
    ("D,0,93", 10),
    ("D,0,93\n\n", 10),
    ("D,0,93\r\n", 10),
    ("D,0\n", 10),
    ("D,0,1,1\n", 10),
    ("D,0,\n", 10),
    ("D\n", 10),
    ("D", 10),
    ("\n", 10),
    ("d,0,93\n", 10),
    // Lines that a reader takes, or gives 11.
    ("O,0,1,1,1\n", 10),
    ("O,96,1,1,1\n", 10),
    ("O,0,4,1,1\n", 10),
    ("M,0,1,1,1,1,1\n", 10),
    ("M,94,1,1,1,1,1\n", 10),
    ("A,0,1\n", 10),
    ("A,96,\n", 10),
    ("S,3,1,1,2\n", 10),
    ("G,0\n", 10),
];

/// "A line refused once it is taken frees its place and counts as served too."
#[test]
fn refusals_of_a_line_once_taken() {
    for &(line, refusal) in TAKEN {
        let state = waiting(&[(8, "D,1,1\n"), (6, line)]);
        let outcome = Call::Turn.perform(&REFERENCE, &state);
        assert_eq!((outcome.refusal, outcome.value), (refusal, 0), "{line:?}");
        let mut dealers = state.dealers.clone();
        (dealers[0], dealers[86]) = (6, 0);
        assert_eq!(outcome.state.dealers, dealers, "{line:?}");
        if refusal != 0 {
            assert_eq!(outcome.state, State { dealers, ..state }, "{line:?}");
        }
    }
}

/// 7, then 8, as a deal; a bad number of another row isn't looked at.
#[test]
fn what_the_deal_answers() {
    let state = waiting(&[(1, "D,0,93\n")]);
    let number = |place| Damage::Number { place, number: MODULUS };
    let held = Damage::Mark { row: 0, mark: 2 };
    for (damage, refusal) in [
        (vec![number(0)], 8),
        (vec![number(7)], 8),
        (vec![held, number(0)], 7),
        (vec![number(8)], 0),
    ] {
        let before = damaged(&state, &damage);
        let outcome = Call::Turn.perform(&REFERENCE, &before);
        assert_eq!(outcome.refusal, refusal);
        assert_eq!((outcome.state.dealers[0], outcome.state.dealers[1]), (1, 0));
        if refusal != 0 {
            assert_eq!(outcome.state.rows, before.rows);
            assert_eq!(outcome.state.session, before.session);
        }
    }
}

/// The same line twice: the second is refused with 7, and the third dealer is served after it.
#[test]
fn one_row_from_two_dealers() {
    let mut state = waiting(&[(1, "D,0,93\n"), (2, "D,0,94\n"), (3, "D,1,2\n")]);
    let refusals = [(); 4].map(|()| {
        let outcome = Call::Turn.perform(&REFERENCE, &state);
        state = outcome.state;
        outcome.refusal
    });
    assert_eq!(refusals, [0, 7, 0, 0]);
    assert_eq!((state.dealers[0], &state.session.marks[..3]), (3, &[2, 2, 1][..]));
}

/// "A waiting line is taken within eight turns ..., however often other dealers send."
#[test]
fn a_waiting_line_is_taken_within_eight_turns() {
    let mut rng = Rng::new(8);
    let mut state = waiting(&[]);
    let mut waited = [0; 8];
    let mut longest = 0;
    for _ in 0..20_000 {
        if rng.one_in(9) {
            let dealer = rng.between(1, 8);
            let call = place(dealer, "D,50,1\n");
            state = call.perform(&REFERENCE, &state).state;
        } else if rng.one_in(3) {
            // A busy dealer, and turns that aren't counted.
            state = place(4, "D,50,1\n").perform(&REFERENCE, &state).state;
            let refused = damaged(&state, &[Damage::Points(3)]);
            assert_refused(&refused, Call::Turn, 4);
        } else {
            state = Call::Turn.perform(&REFERENCE, &state).state;
            for (dealer, waited) in waited.iter_mut().enumerate() {
                let waits = state.dealers[1 + 17 * dealer] > 0;
                *waited = if waits { *waited + 1 } else { 0 };
                longest = longest.max(*waited);
            }
        }
    }
    assert!((3..8).contains(&longest), "{longest}");
}
