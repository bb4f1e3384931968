//! The random scripts, paperwork and street inputs, run on the reference alone: they reach every
//! refusal, valid steps are taken, and refused ones change nothing.

use reference::random::{
    paperwork, script, script_for, street_input, unwritten, wild_calls, wild_state, Call, Outcome,
    Paperwork, PaperworkOutcome, Rng, Script, Seen, State, CALL_REFUSALS, PAPERWORK_REFUSALS,
    STREET_REFUSALS,
};
use reference::{Library, Session, Shape, LONGEST_LINE, REFERENCE};

/// Replays a script; every step is checked against what document 01 says of all calls.
fn check(script: &Script, seen: &mut Seen) {
    let mut state = script.state();
    for (step, outcome) in script.steps.iter().zip(script.replay(&REFERENCE)) {
        seen.note(&step.call, outcome.refusal);
        if step.trial {
            check_refused(&step.call, &step.damaged(&state), &outcome);
        } else {
            assert_eq!(outcome.refusal, step.refusal, "{step:?}");
            assert_eq!(outcome.value, step.opens_to.unwrap_or(0), "{step:?}");
            state = outcome.state;
        }
    }
    let shape = Shape::checked(state.session.n, state.session.t, state.session.k).unwrap();
    assert_eq!(state.session.marks, script.marks);
    let remembered = state.session.y.into_iter().zip(state.session.y2);
    assert!(remembered.eq(script.opened.map(|[y, y2]| (y, y2))));
    assert_eq!(state.dealers, script.dealers_after);
    for row in 0..96 {
        let callers = (1..=shape.posts()).filter(|&post| !state.session.barred[row].has(post));
        assert_eq!(callers.collect::<Vec<_>>(), script.callers[row], "row {row}");
        let written = script.written.iter().find(|(written, _)| *written == row);
        let expected = written.map_or(&script.rows[shape.at(row)], |(_, numbers)| numbers);
        assert_eq!(&state.rows[shape.at(row)], expected, "row {row}");
    }
}

/// "Refused calls change nothing and give value 0."
fn check_refused(call: &Call, before: &State, outcome: &Outcome) {
    if outcome.refusal != 0 {
        assert_eq!(outcome.value, 0);
        assert_eq!(outcome.out, unwritten(outcome.out.len()));
        assert_eq!(outcome.state.rows, before.rows);
        let new = matches!(call, Call::NewSession { .. });
        let expected = if new { Session::BLANK } else { before.session };
        assert_eq!(outcome.state.session, expected);
        let taken = *call == Call::Turn && [7, 8, 10, 11].contains(&outcome.refusal);
        let dealers = if taken { after_turn(&before.dealers) } else { before.dealers.clone() };
        assert_eq!(outcome.state.dealers, dealers);
    }
}

/// "The place and the last dealer are all that it changes."
fn after_turn(dealers: &[u8]) -> Vec<u8> {
    let mut after = dealers.to_vec();
    let length_of = |dealer: &usize| dealers[17 * dealer - 16];
    let round = (1..=8).map(|step| (usize::from(dealers[0]) + step - 1) % 8 + 1);
    let dealer = { round }.find(|dealer| length_of(dealer) > 0).expect("a line waits");
    after[0] = dealer as u8;
    after[17 * dealer - 16] = 0;
    after
}

#[test]
fn random_sessions() {
    let mut seen = Seen::default();
    for seed in 0..300 {
        check(&script(seed, 60), &mut seen);
    }
    seen.assert_met(CALL_REFUSALS);
}

#[test]
fn every_n_and_t() {
    let mut seen = Seen::default();
    let mut rng = Rng::new(77);
    for n in 2..=32 {
        for t in 1..n {
            let shape = Shape::checked(n, t, rng.between(1, 2)).unwrap();
            check(&script_for(&mut rng, shape, 30), &mut seen);
        }
    }
    seen.assert_met(&[("Open", &[0, 9, 13]), ("OpenMasks", &[0, 9, 13])]);
}

/// "n as a parameter": the larger station does what the smaller one does.
#[test]
fn larger_stations() {
    let mut seen = Seen::default();
    let mut rng = Rng::new(78);
    for (n, t) in [(33, 1), (33, 32), (100, 50), (254, 1), (255, 1), (255, 127), (255, 254)] {
        for k in [1, 2] {
            let shape = Shape::checked(n, t, k).unwrap();
            check(&script_for(&mut rng, shape, 20), &mut seen);
        }
    }
    seen.assert_met(&[("Open", &[0, 9, 13])]);
}

/// The refusal, and whether a list lent for writing is as it was.
fn refusal_and_untouched(outcome: &PaperworkOutcome) -> (u8, bool) {
    match outcome {
        PaperworkOutcome::Factory { refusal, out } => (*refusal, *out == unwritten(out.len())),
        PaperworkOutcome::DealerNumber { refusal, c } => (*refusal, *c == 0),
        PaperworkOutcome::Written { written, out } => {
            let high = |(place, &byte): (usize, &u8)| byte == 128 | place as u8;
            let rest_untouched = out.iter().enumerate().skip(written.length).all(high);
            assert!(rest_untouched);
            (written.refusal, written.length == 0)
        }
        PaperworkOutcome::Read { read, out } => (read.refusal, *out == unwritten(out.len())),
    }
}

#[test]
fn random_paperwork() {
    let mut seen = Seen::default();
    for seed in 0..40_000 {
        let work: Paperwork = paperwork(seed);
        let outcome = work.perform(&REFERENCE);
        let (refusal, untouched) = refusal_and_untouched(&outcome);
        assert!(refusal == 0 || untouched, "{work:?} gave {outcome:?}");
        seen.note(&work, refusal);
    }
    seen.assert_met(PAPERWORK_REFUSALS);
}

#[test]
fn random_street_inputs() {
    let mut seen = Seen::default();
    let (mut opened, mut longest) = (0, 0);
    for seed in 0..1500 {
        let input = street_input(seed, 60);
        let output = String::from_utf8(REFERENCE.street(&input)).unwrap();
        let answers = || output.lines().skip(1).filter(|line| !line.starts_with('M'));
        let lines = || input.split_inclusive(|&byte| byte == b'\n');
        assert_eq!(answers().count(), lines().count());
        for (line, answer) in lines().zip(answers()) {
            let fields: Vec<usize> =
                answer.split(',').map(|field| field.parse().unwrap()).collect();
            longest += usize::from(line.len() == LONGEST_LINE && fields[1] == 0);
            opened += usize::from(fields[2] > 0);
            seen.note_kind(&char::from(line[0]).to_string(), fields[1] as u8);
        }
    }
    seen.assert_met(STREET_REFUSALS);
    assert!(opened > 1000, "only {opened} numbers opened");
    assert!(longest > 2, "only {longest} longest lines taken");
}

/// "No argument makes them panic": every number at random, most of them wild.
#[test]
fn wild_arguments_never_panic() {
    let mut rng = Rng::new(5);
    let mut seen = [0; 20];
    for round in 0..20_000 {
        let state = wild_state(&mut rng, round % 2 == 0);
        for call in wild_calls(&mut rng) {
            let outcome = call.perform(&REFERENCE, &state);
            check_refused(&call, &state, &outcome);
            seen[usize::from(outcome.refusal)] += 1;
        }
    }
    assert!((0..12).chain(14..18).all(|refusal| seen[refusal] > 0), "{seen:?}");
}
