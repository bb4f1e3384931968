//! Request (xiii): the group lies at the last opening.
//!
//! After any list of calls, a last phase about one row: counts of draws with the group's record, the
//! answers and every other post's acceptances are equal where all numbers opened before agree, and this
//! row's too.

mod choices;
mod plain_book;
mod random;
mod stations;

use super::*;
use choices::{anything, echo, guess, moody, silence, truth};
use record::{Event, Last};
use Event::{Called, Opens, Says};
use Step::{Place, Turn};

type Choose = fn(&record::View) -> Option<Vec<u32>>;

const CHOICES: [Choose; 6] =
    [truth::<5>, silence, anything::<5>, guess::<5>, moody::<5>, echo::<5>];

/// Everybody's first line.
const ALL_FIRST: &[(usize, usize)] = &[(1, 0), (2, 0), (3, 0)];

/// It lies before the others have sent their messages.
fn lie_first(what: Choose) -> Vec<Event> {
    vec![
        Says { post: 1, what },
        Called { post: 2, by: 3 },
        Called { post: 3, by: 1 },
        Opens { post: 2, with: ALL_FIRST },
        Opens { post: 3, with: ALL_FIRST },
        Opens { post: 1, with: ALL_FIRST },
    ]
}

/// It waits for the others' messages.
fn lie_last(what: Choose) -> Vec<Event> {
    vec![
        Called { post: 2, by: 2 },
        Called { post: 3, by: 2 },
        Says { post: 1, what },
        Opens { post: 2, with: &[(1, 0)] },
        Opens { post: 2, with: &[(3, 0)] },
        Opens { post: 3, with: &[(1, 0), (2, 0)] },
        Opens { post: 2, with: ALL_FIRST },
    ]
}

/// It lies, sees what post 2 answers, lies again: several lines, and different ones in the records.
fn lie_again(what: Choose) -> Vec<Event> {
    vec![
        Says { post: 1, what },
        Opens { post: 2, with: &[(1, 0)] },
        Says { post: 1, what },
        Opens { post: 3, with: &[(1, 1)] },
        Called { post: 3, by: 1 },
        Says { post: 1, what },
        Opens { post: 2, with: &[(1, 1), (3, 0)] },
        Opens { post: 2, with: &[(1, 2), (3, 0)] },
        Opens { post: 3, with: &[(1, 0)] },
        Opens { post: 3, with: &[] },
    ]
}

/// Nobody else sends anything.
fn lie_alone(what: Choose) -> Vec<Event> {
    let opens = |post| Opens { post, with: &[(1, 0)] };
    vec![Says { post: 1, what }, opens(2), opens(3)]
}

/// All that post 1 of three sees of a pack: f(0) alone is left to chance.
const ALL_SEEN: Condition = Condition { own: &[1], checks: true, sums: &[1, 2, 3], ..ALL };

/// The same but m3: two numbers are left to chance.
const MUCH_SEEN: Condition = Condition { sums: &[1, 2], ..ALL_SEEN };

/// The same but m2 and m3: three numbers are left to chance.
const LESS_SEEN: Condition = Condition { sums: &[1], ..ALL_SEEN };

/// Check points of three posts; the first three are the guesses' best, as all are equal.
const POINTS: [[u32; 3]; 3] = [[2, 2, 2], [1, 3, 4], [4, 1, 1]];

/// A plan of three posts, t = 1, whose last phase is about row `row`.
fn last(raw: &[Raw], triples: &[usize], steps: &[Step], row: usize, events: Vec<Event>) -> Plan {
    Plan { last: Some(Last { row, events }), ..plan(3, 1, raw, triples, steps) }
}

const SUM: Step = Step::Linear { dest: 9, a: 0, b: 1, scale: 2, fee: 3 };

/// Rows 0 and 1 with the numbers u and u', and u + 2u' + 3 in row 9, which is opened last.
fn sum(events: Vec<Event>) -> Plan {
    let steps = [LoadRow(0), LoadRow(1), Deal(0), Deal(1), SUM];
    last(&[raw(0), raw(1)], &[], &steps, 9, events)
}

fn counts_of_sum(points: &[u32], events: Vec<Event>, secrets: [&[u32]; 2]) -> bool {
    equal_counts::<5>(&sum(events), points, (MUCH_SEEN, ALL), &[1], secrets)
}

#[test]
fn lies_about_a_sum_show_no_more_than_its_number() {
    for points in POINTS {
        for what in CHOICES {
            for events in [lie_first, lie_last, lie_again, lie_alone] {
                assert!(counts_of_sum(&points, events(what), [&[1, 2], &[3, 1]]));
            }
        }
    }
    let counts = |events| {
        equal_counts::<5>(&sum(events), &[1, 3, 4], (LESS_SEEN, ALL), &[1], [&[1, 2], &[3, 1]])
    };
    assert!(counts(lie_again(moody::<5>)) && counts(lie_last(guess::<5>)));
}

/// These phases meet every answer of an opening: the number, 9 and 13; lies are accepted, and are not.
#[test]
fn what_the_phases_meet() {
    let shape = Shape::checked(3, 1, 1).unwrap();
    let (mut opened, mut accepted) = ([0; 20], [0; 3]);
    for events in [lie_first, lie_last, lie_again] {
        let (plan, points) = (sum(events(moody::<5>)), [1, 3, 4]);
        let mut station = Station::<5>::new(&plan, &[1]);
        let rows = MUCH_SEEN.row_draws::<5>(shape, &points);
        for_each_draw(&points, &[&rows, &rows], &[], &mut |draw| {
            station.record(draw, &[1, 2]);
            let met = station.met();
            met.0.iter().for_each(|&refusal| opened[usize::from(refusal)] += 1);
            met.1.iter().for_each(|&accepts| accepted[usize::from(accepts)] += 1);
        });
    }
    assert!([0, 9, 13].iter().all(|&refusal| opened[refusal] > 100), "{opened:?}");
    assert!(accepted[0] > 100 && accepted[1] > 100 && accepted[2] == 0, "{accepted:?}");
}

/// Two posts with t = 1 know the sum's terms before anybody lies.
#[test]
fn more_than_t_posts() {
    let seen = Condition { own: &[1, 2], checks: true, ..ALL };
    let plan = sum(vec![Says { post: 1, what: truth::<5> }, Says { post: 2, what: guess::<5> }]);
    let secrets: [&[u32]; 2] = [&[1, 2], &[3, 1]];
    assert!(!equal_counts::<5>(&plan, &[1, 3, 4], (seen, ALL), &[1, 2], secrets));
}

/// The row's number is opened, whether post 1 lies or not.
#[test]
fn a_number_that_differs() {
    let different: [&[u32]; 2] = [&[1, 2], &[1, 1]];
    for what in CHOICES {
        for events in [lie_first, lie_last, lie_again] {
            assert!(!counts_of_sum(&[1, 3, 4], events(what), different));
        }
    }
    // Nobody else sends anything: one share more is enough for post 2 and post 3, a false one that both
    // accept too.
    for what in [truth::<5>, guess::<5>] {
        assert!(!counts_of_sum(&[2, 2, 2], lie_alone(what), different));
    }
    assert!(counts_of_sum(&[2, 2, 2], lie_alone(silence), different));
}

/// Row 2 is opened before, by the rules: its number must agree too.
#[test]
fn numbers_opened_before() {
    let steps = [LoadRow(0), LoadRow(1), LoadRow(2), Deal(0), Deal(1), Deal(2)];
    let steps = [&steps[..], &[SUM, Message(2), Open(2)]].concat();
    let counts = |secrets| {
        let plan = last(&[raw(0), raw(1), raw(2)], &[], &steps, 9, lie_again(guess::<5>));
        equal_counts::<5>(&plan, &[3, 1, 2], (ALL_SEEN, ALL), &[1], secrets)
    };
    assert!(counts([&[1, 2, 4], &[3, 1, 4]]));
    assert!(!counts([&[1, 2, 4], &[3, 1, 3]]));
    assert!(!counts([&[1, 2, 4], &[3, 3, 4]]));
}

/// The row itself is opened before, and once more.
#[test]
fn the_same_row_opened_before() {
    let steps = [LoadRow(0), LoadRow(1), Deal(0), Deal(1), SUM, Message(9), Open(9)];
    for events in [lie_first, lie_last, lie_again, lie_alone] {
        let plan = last(&[raw(0), raw(1)], &[], &steps, 9, events(moody::<5>));
        let counts =
            |secrets| equal_counts::<5>(&plan, &[3, 1, 2], (MUCH_SEEN, ALL), &[1], secrets);
        assert!(counts([&[1, 2], &[3, 1]]));
        assert!(!counts([&[1, 2], &[3, 2]]));
    }
}

/// Post 1 deals row 2 and knows its f: its secret must agree, and the sum's number.
#[test]
fn a_liar_that_deals() {
    let rows = [raw(0), raw(1), Raw { dealer: 1, ..raw(2) }];
    let steps = [LoadRow(0), LoadRow(1), LoadRow(2), Deal(0), Deal(1), Deal(2), SUM];
    let more = Step::Linear { dest: 10, a: 9, b: 2, scale: 1, fee: 0 };
    let plan = last(&rows, &[], &[&steps[..], &[more]].concat(), 10, lie_again(guess::<5>));
    let counts = |secrets| equal_counts::<5>(&plan, &[1, 4, 2], (ALL_SEEN, ALL), &[1], secrets);
    assert!(counts([&[1, 2, 4], &[3, 1, 4]]));
    assert!(!counts([&[1, 2, 4], &[2, 2, 3]]));
    assert!(!counts([&[1, 2, 4], &[3, 2, 4]]));
}

/// "That row counts as opened, even where its set bars each caller": post 1 sends its polynomial though
/// nobody may call for it. The rows are dealt in turn.
#[test]
fn a_row_that_bars_each_caller() {
    let lines = [Place { dealer: 1, row: 0 }, Place { dealer: 5, row: 1 }, Turn, Turn];
    let loads = [LoadRow(0), LoadRow(1), Callers("A,0,\n")];
    let steps = [&loads[..], &lines, &[SUM]].concat();
    let counts = |events, secrets| {
        let plan = last(&[raw(0), raw(1)], &[], &steps, 9, events);
        equal_counts::<5>(&plan, &[2, 4, 3], (MUCH_SEEN, ALL), &[1], secrets)
    };
    for what in CHOICES {
        for events in [lie_first, lie_last, lie_again] {
            assert!(counts(events(what), [&[1, 2], &[3, 1]]));
        }
    }
    assert!(!counts(lie_first(truth::<5>), [&[1, 2], &[1, 1]]));
}

/// A row that isn't held is opened by nobody, and the others get 7.
#[test]
fn a_row_that_is_not_held() {
    let steps = [LoadRow(0), LoadRow(1), Deal(1)];
    for events in [lie_first, lie_last, lie_again] {
        for row in [0, 2] {
            let plan = last(&[raw(0), raw(1)], &[], &steps, row, events(guess::<5>));
            let secrets: [&[u32]; 2] = [&[1, 2], &[3, 4]];
            assert!(equal_counts::<5>(&plan, &[2, 4, 3], (MUCH_SEEN, ALL), &[1], secrets));
        }
    }
}
