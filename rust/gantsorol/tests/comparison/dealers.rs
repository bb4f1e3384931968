//! Several dealers at one station: states of every length, with every byte in every place; lines of every length, and of nearly right
//! form; random states, right and damaged; eight busy dealers.

use std::collections::BTreeMap;

use gantsorol::{DEALERS, DEALERS_LEN, DEAL_LINE_LEN, MODULUS};
use reference::random::{Call, Rng, State};
use reference::{Library, REFERENCE};

use crate::callers::nearly;
use crate::common::{seeds, Verified};
use crate::{compare_call, fixed_seeds};

/// Post 1 of three with raw rows, and no line waiting.
fn raw() -> State {
    let mut session = REFERENCE.new_session(3, 1, 1, 1, 2, 0).session;
    session.marks = [1; 96];
    State::new(session, vec![5; gantsorol::rows_len(3, 1, 1)])
}

/// Where the state has the length of a dealer's place.
fn place_of(dealer: usize) -> usize {
    17 * dealer - 16
}

/// The state after a line was placed.
fn placed(state: &State, dealer: usize, line: &[u8]) -> State {
    let mut state = state.clone();
    assert_eq!(Verified.place_line(&mut state.dealers, dealer, line), 0);
    state
}

fn place(dealer: usize, line: &[u8]) -> Call {
    Call::PlaceLine { dealer, line: line.to_vec() }
}

/// Lines wait at dealers 2, 5 and 7, and the last one served is this.
fn some_wait(last: u8) -> State {
    let lines = [(2, "D,0,93\n"), (5, "D,95,2147483646\n"), (7, "O,0,1,1,1\n")];
    let mut state =
        lines.iter().fold(raw(), |state, (dealer, line)| placed(&state, *dealer, line.as_bytes()));
    state.dealers[0] = last;
    state
}

#[test]
fn every_byte_of_the_state() {
    let mut met = [0; 18];
    for at in 0..DEALERS_LEN {
        for byte in 0..=u8::MAX {
            let mut state = some_wait(4);
            state.dealers[at] = byte;
            let seed = at as u64 * 256 + u64::from(byte);
            met[usize::from(compare_call(seed, &Call::Turn, &state))] += 1;
            let dealer = 1 + usize::from(byte) % DEALERS;
            met[usize::from(compare_call(seed, &place(dealer, b"D,1,2\n"), &state))] += 1;
            if byte == 0 {
                compare_call(seed, &Call::NewDealers, &state);
            }
        }
    }
    assert!([0, 10, 11, 16, 17].iter().all(|&refusal| met[refusal] > 0), "{met:?}");
}

#[test]
fn every_length_of_the_state() {
    for length in 0..300 {
        let mut state = some_wait(8);
        state.dealers.resize(length, 0);
        for call in [Call::NewDealers, Call::Turn, place(9, b""), place(3, b"D,0,1\n")] {
            let refusal = compare_call(length as u64, &call, &state);
            assert_eq!(refusal == 5, length != DEALERS_LEN, "{length}: {call:?}");
        }
    }
}

/// Every dealer and some that are none, with a free place and with a filled one; every length of a line.
#[test]
fn every_dealer_and_every_length_of_a_line() {
    let state = some_wait(8);
    let beyond = [255, 256, 257, (1 << 32) + 1, usize::MAX];
    for dealer in (0..=9).chain(beyond) {
        for length in 0..=40 {
            let refusal = compare_call(length as u64, &place(dealer, &vec![7; length]), &state);
            let expected = match dealer {
                2 | 5 | 7 => 17,
                1..=8 if (1..=DEAL_LINE_LEN).contains(&length) => 0,
                1..=8 => 10,
                _ => 16,
            };
            assert_eq!(refusal, expected, "{dealer}, {length}");
        }
    }
}

/// For every last dealer and every set of dealers with a line, the turn serves the next one of them, going round.
#[test]
fn turns_go_round() {
    for last in 1..=8 {
        for waits in 0..256_usize {
            let waits = |dealer: usize| waits & 1 << (dealer - 1) != 0;
            let mut state =
                (1..=DEALERS).filter(|&dealer| waits(dealer)).fold(raw(), |state, dealer| {
                    placed(&state, dealer, format!("D,{dealer},1\n").as_bytes())
                });
            state.dealers[0] = last as u8;
            let outcome = Call::Turn.perform(&Verified, &state);
            assert_eq!(outcome, Call::Turn.perform(&REFERENCE, &state));
            match (last + 1..=8).chain(1..=last).find(|&dealer| waits(dealer)) {
                None => assert_eq!(outcome.state, state),
                Some(next) => {
                    assert_eq!((outcome.refusal, outcome.state.session.marks[next]), (0, 2));
                    (state.dealers[0], state.dealers[place_of(next)]) = (next as u8, 0);
                    assert_eq!(outcome.state.dealers, state.dealers);
                }
            }
        }
    }
}

/// Whatever the line gets once it is taken, place and last dealer change, and on a refusal nothing else.
#[test]
fn lines_of_nearly_right_form() {
    let mut met = [0; 18];
    for line in
        ["D,0,93\n", "D,95,2147483646\n", "D,96,1\n", "A,0,1\n", "O,0,1,1,1\n", "M,3,1,1,1,1,1\n"]
    {
        let short = |line: &Vec<u8>| (1..=DEAL_LINE_LEN).contains(&line.len());
        for line in nearly(line.as_bytes()).into_iter().filter(short) {
            let state = placed(&some_wait(2), 3, &line);
            let refusal = compare_call(0, &Call::Turn, &state);
            met[usize::from(refusal)] += 1;
            let outcome = Call::Turn.perform(&Verified, &state);
            let mut dealers = state.dealers.clone();
            (dealers[0], dealers[place_of(3)]) = (3, 0);
            assert_eq!(outcome.state.dealers, dealers, "{line:?}");
            if refusal != 0 {
                assert_eq!(outcome.state, State { dealers, ..state }, "{line:?}");
            }
        }
    }
    assert!([0, 10, 11].iter().all(|&refusal| met[refusal] > 20), "{met:?}");
    assert_eq!(met.iter().sum::<usize>(), met[0] + met[10] + met[11]);
}

/// A line that a dealer may send: a deal, a deal of a row that is not raw or of a number too large, or any bytes.
fn any_line(rng: &mut Rng) -> Vec<u8> {
    match rng.below(6) {
        0 => (0..rng.between(1, 16)).map(|_| rng.below(256) as u8).collect(),
        1 => format!("D,{},1\n", rng.below(200)).into_bytes(),
        2 => format!("D,{},{}\n", rng.below(96), u64::from(MODULUS) + rng.below(3) as u64)
            .into_bytes(),
        _ => format!("D,{},{}\n", rng.below(96), rng.elements(1)[0]).into_bytes(),
    }
}

/// Any number of lines waiting, of any length, any last dealer; in one of four states a byte or the length is wrong.
fn any_state(rng: &mut Rng) -> State {
    let mut state = raw();
    state.dealers = (0..DEALERS_LEN).map(|_| rng.below(256) as u8).collect();
    state.dealers[0] = rng.between(1, 8) as u8;
    let often = rng.between(1, 4);
    for dealer in 1..=DEALERS {
        let line = any_line(rng);
        let length = if rng.one_in(often) { 0 } else { line.len() };
        state.dealers[place_of(dealer)] = length as u8;
        state.dealers[place_of(dealer) + 1..][..line.len().min(16)]
            .copy_from_slice(&line[..line.len().min(16)]);
    }
    for row in 0..96 {
        state.session.marks[row] = rng.pick(&[1, 1, 1, 2, 0, 6]);
    }
    if rng.one_in(5) {
        let place = rng.below(8);
        state.rows.iter_mut().skip(place).step_by(8).for_each(|number| *number = MODULUS);
    }
    match rng.below(12) {
        0 => state.dealers[0] = rng.pick(&[0, 9, 255]),
        1 => state.dealers[place_of(rng.between(1, 8))] = rng.pick(&[16, 17, 18, 255]),
        2 => state.dealers.resize(rng.pick(&[0, 1, 136, 138, 200]), 0),
        _ => {}
    }
    state
}

#[test]
fn random_states() {
    let mut met: BTreeMap<(bool, u8), u64> = BTreeMap::new();
    for seed in seeds(40_000) {
        let mut rng = Rng::new(seed);
        let state = any_state(&mut rng);
        let refusal = compare_call(seed, &Call::Turn, &state);
        *met.entry((true, refusal)).or_default() += 1;
        let mut line = any_line(&mut rng);
        line.resize(if rng.one_in(8) { rng.pick(&[0, 17, 40]) } else { line.len() }, 0);
        let dealer = rng.between(0, 9);
        let refusal = compare_call(seed, &Call::PlaceLine { dealer, line }, &state);
        *met.entry((false, refusal)).or_default() += 1;
    }
    if fixed_seeds() {
        for (turn, refusals) in
            [(true, &[0, 5, 7, 8, 10, 11, 16][..]), (false, &[0, 5, 10, 16, 17])]
        {
            let often = |&refusal: &u8| met.get(&(turn, refusal)).is_some_and(|&count| count > 50);
            assert!(refusals.iter().all(often), "{met:?}");
        }
    }
}

/// Eight dealers send whenever their place is free, and now and then what is refused: each of them is served every eight turns, and
/// none waits longer. Both libraries hand on their own state.
#[test]
fn eight_busy_dealers() {
    let mut rng = Rng::new(8);
    let [mut ours, mut second] = [raw(), raw()];
    let mut served = vec![];
    for _ in 0..2_000 {
        for dealer in 1..=DEALERS {
            let line = any_line(&mut rng);
            let call = Call::PlaceLine { dealer, line: line[..line.len().min(16)].to_vec() };
            let outcomes = [call.perform(&Verified, &ours), call.perform(&REFERENCE, &second)];
            assert!(outcomes[0] == outcomes[1] && [0, 17].contains(&outcomes[0].refusal));
            [ours, second] = outcomes.map(|outcome| outcome.state);
        }
        let outcomes =
            [Call::Turn.perform(&Verified, &ours), Call::Turn.perform(&REFERENCE, &second)];
        assert_eq!(outcomes[0], outcomes[1]);
        [ours, second] = outcomes.map(|outcome| outcome.state);
        // Rows that were dealt are raw again.
        ours.session.marks = [1; 96];
        second.session.marks = [1; 96];
        served.push(usize::from(ours.dealers[0]));
    }
    let round: Vec<usize> = (1..=DEALERS).cycle().take(served.len()).collect();
    assert_eq!(served, round);
}

/// A line that waits while others come and go is taken within eight turns, and eight are needed where all are busy.
#[test]
fn a_waiting_line_is_taken_within_eight_turns() {
    let (mut waited, mut longest) = ([0; DEALERS], 0);
    let mut rng = Rng::new(9);
    let mut state = raw();
    for _ in 0..30_000 {
        let busy = rng.one_in(20);
        for dealer in 1..=DEALERS {
            if busy || rng.one_in(6) || dealer == 4 {
                Verified.place_line(&mut state.dealers, dealer, b"D,50,1\n");
            }
        }
        // Turns that are refused with 5 and 16 are not counted.
        let mut damaged = state.clone();
        damaged.dealers[0] = 9;
        assert_eq!(Verified.turn(state.session, &mut [], &mut state.dealers).refusal, 5);
        assert_eq!(Verified.turn(state.session, &mut state.rows, &mut damaged.dealers).refusal, 16);
        let before = state.dealers.clone();
        let answer = Verified.turn(state.session, &mut state.rows, &mut state.dealers);
        assert_eq!(answer.refusal, 0);
        for dealer in 1..=DEALERS {
            let (was, is) = (before[place_of(dealer)] > 0, state.dealers[place_of(dealer)] > 0);
            if was {
                waited[dealer - 1] += 1;
                longest = longest.max(waited[dealer - 1]);
            }
            if !is {
                waited[dealer - 1] = 0;
            }
        }
    }
    assert_eq!(longest, 8);
}
