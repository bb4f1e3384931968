//! Plans with a triple.

use super::*;

/// Row 0 squared by the triple at rows 1 to 3.
fn square(then: &[Step]) -> Plan {
    let steps = [
        LoadTriple(1),
        LoadRow(0),
        Deal(0),
        Finish(1),
        Step::Masks { a: 0, b: 0, first: 1 },
        Finish(1),
    ];
    plan(2, 1, &[raw(0)], &[1], &[&steps, then].concat())
}

fn square_counts(then: &[Step], secrets: [&[u32]; 2]) -> bool {
    let condition = (SEEN_BY_1_WITH_SUM, SEEN_BY_1_WITH_SUM);
    equal_counts::<5>(&square(then), &[3, 1], condition, &[1], secrets)
}

#[test]
fn masks_and_finish_show_nothing() {
    assert!(square_counts(&[], [&[1], &[3]]));
    assert!(square_counts(&[Step::Masks { a: 0, b: 0, first: 1 }, Open(3)], [&[0], &[2]]));
}

#[test]
fn nor_to_the_other_post_or_to_nobody() {
    let seen_by_2 = Condition { own: &[2], checks: true, sums: &[2], short: false };
    let counts = |condition, group: &[usize]| {
        let plan = square(&[]);
        equal_counts::<3>(&plan, &[2, 1], (condition, condition), group, [&[1], &[0]])
    };
    assert!(counts(seen_by_2, &[2]));
    // What nobody sees is a part of what post 1 sees.
    assert!(counts(SEEN_BY_1, &[]));
    assert!(!counts(seen_by_2, &[1, 2]));
}

#[test]
fn a_product_opened_shows_the_product_only() {
    assert!(square_counts(&[Message(3), Open(3)], [&[1], &[4]]));
    assert!(!square_counts(&[Message(3), Open(3)], [&[1], &[3]]));
}

/// Rows 0 and 1 and the triple at rows 2 to 4.
fn two_factors(steps: &[Step]) -> Plan {
    let loads = [LoadRow(0), LoadRow(1), LoadTriple(2), Deal(0), Deal(1)];
    plan(2, 1, &[raw(0), raw(1)], &[2], &[&loads, steps].concat())
}

fn factor_counts(steps: &[Step], secrets: [&[u32]; 2]) -> bool {
    let condition = (SEEN_BY_1_WITH_SUM, SEEN_BY_1_WITH_SUM);
    equal_counts::<3>(&two_factors(steps), &[2, 1], condition, &[1], secrets)
}

/// The same with fewer draws of the raw rows, of which f(0) alone is left, and more of the triple.
fn factor_counts_with_more_triples(steps: &[Step], secrets: [&[u32]; 2]) -> bool {
    let condition = (ALL_SEEN_BY_1, SEEN_BY_1);
    equal_counts::<3>(&two_factors(steps), &[1, 1], condition, &[1], secrets)
}

const MULTIPLY: [Step; 2] = [Step::Masks { a: 0, b: 1, first: 2 }, Finish(2)];

#[test]
fn two_factors_and_their_product() {
    let opened = [&MULTIPLY[..], &[Message(4), Open(4)]].concat();
    for counts in [factor_counts, factor_counts_with_more_triples] {
        assert!(counts(&opened, [&[1, 2], &[2, 1]]));
        assert!(!counts(&opened, [&[1, 2], &[2, 2]]));
        assert!(counts(&MULTIPLY, [&[1, 2], &[2, 2]]));
    }
}

/// "Using one triple for two products: the difference of two masks shows the difference of two
/// factors."
#[test]
fn one_triple_for_two_products() {
    let first = Step::Masks { a: 0, b: 0, first: 2 };
    let second = Step::Masks { a: 1, b: 1, first: 2 };
    let forced = [first, Overwrite { row: 2, mark: 3 }, second];
    assert!(!factor_counts(&forced, [&[1, 2], &[1, 1]]));
    assert!(factor_counts(&forced, [&[1, 2], &[0, 1]]));
    // The session refuses the second use: nothing is shown then.
    assert!(factor_counts(&[first, second], [&[1, 2], &[1, 1]]));
}

/// A third row of a finished triple is a held row like any other.
#[test]
fn a_sum_with_a_product() {
    let sum = Step::Linear { dest: 9, a: 4, b: 0, scale: 1, fee: 0 };
    let steps = [&MULTIPLY[..], &[sum, Message(9), Open(9)]].concat();
    let counts = |secrets| factor_counts(&steps, secrets);
    // ab + a: 1·1 + 1 = 2·0 + 2, and 1·0 + 1 differs.
    assert!(counts([&[1, 1], &[2, 0]]));
    assert!(!counts([&[1, 1], &[1, 0]]));
}

/// "Each at most once": nothing refuses a triple's packs in other rows too.
#[test]
fn one_drawn_triple_in_two_places() {
    let again = LoadTripleAgain { of: 2, into: 5 };
    let both = [0, 1].map(|row| Step::Masks { a: row, b: row, first: 2 + 3 * row });
    let counts = |secrets| factor_counts(&[&[again], &both[..]].concat(), secrets);
    assert!(!counts([&[1, 2], &[1, 1]]));
    assert!(counts([&[1, 2], &[0, 1]]));
}

/// A post that dealt a factor knows it, and learns the other one from the product only.
#[test]
fn a_dealer_of_a_factor() {
    let by_1 = Raw { row: 0, pad_of: 0, dealer: 1 };
    let opened = [&MULTIPLY[..], &[Message(4), Open(4)]].concat();
    let counts = |steps: &[Step], secrets: [&[u32]; 2]| {
        let plan = Plan { raw: vec![by_1, raw(1)], ..two_factors(steps) };
        let condition = (ALL_SEEN_BY_1, ALL_SEEN_BY_1);
        equal_counts::<5>(&plan, &[3, 1], condition, &[1], secrets)
    };
    // The product is the same, the dealer's own secret is not.
    assert!(!counts(&opened, [&[1, 2], &[2, 1]]));
    assert!(!counts(&MULTIPLY, [&[1, 2], &[2, 2]]));
    assert!(counts(&MULTIPLY, [&[1, 2], &[1, 4]]));
    assert!(!counts(&opened, [&[1, 2], &[1, 4]]));
    assert!(counts(&opened, [&[0, 2], &[0, 4]]));
}

/// Three posts multiply: what any t of them see, and what t+1 do.
#[test]
fn products_of_three_posts() {
    let opened = [&MULTIPLY[..], &[Message(4), Open(4)]].concat();
    let counts = |t: usize, group: &[usize], steps: &[Step], secrets: [&[u32]; 2]| {
        let plan = Plan { n: 3, t, ..two_factors(steps) };
        let seen = Condition { own: group, checks: true, sums: &[1, 2, 3], short: false };
        equal_counts::<5>(&plan, &[3, 1, 4], (seen, seen), group, secrets)
    };
    let few: [(usize, &[usize]); 4] = [(1, &[1]), (1, &[3]), (2, &[1, 3]), (2, &[2, 3])];
    for (t, group) in few {
        assert!(counts(t, group, &opened, [&[1, 4], &[2, 2]]), "t = {t}, {group:?}");
        assert!(!counts(t, group, &opened, [&[1, 4], &[2, 1]]), "t = {t}, {group:?}");
        assert!(counts(t, group, &MULTIPLY, [&[1, 4], &[0, 3]]), "t = {t}, {group:?}");
    }
    let enough: [(usize, &[usize]); 3] = [(1, &[1, 3]), (1, &[2, 3]), (2, &[1, 2, 3])];
    for (t, group) in enough {
        assert!(!counts(t, group, &MULTIPLY, [&[1, 4], &[2, 2]]), "t = {t}, {group:?}");
    }
}

/// The square of row 0 times row 1, opened, with another first finish.
fn chain_counts(first: Step, secrets: [&[u32]; 2]) -> bool {
    let steps = [
        [LoadTriple(5), Step::Masks { a: 0, b: 0, first: 2 }, first],
        [Step::Masks { a: 4, b: 1, first: 5 }, Finish(5), Message(7)],
    ];
    let plan =
        Plan { triples: vec![2, 5], ..two_factors(&[&steps.concat()[..], &[Open(7)]].concat()) };
    let condition = (ALL_SEEN_BY_1, ALL_SEEN_BY_1);
    equal_counts::<3>(&plan, &[2, 1], condition, &[1], secrets)
}

#[test]
fn a_product_as_a_factor() {
    assert!(chain_counts(Finish(2), [&[0, 1], &[0, 2]]));
    assert!(chain_counts(Finish(2), [&[1, 2], &[2, 2]]));
    assert!(!chain_counts(Finish(2), [&[1, 1], &[1, 2]]));
}

/// "Adding y y' to the polynomial's constant too, so it counts nothing."
///
/// Everybody knows y y', so that such a product, opened by itself, shows no more than the true one.
/// As a factor it does: it is a² − y y', and the next product shows row 1 though a is 0.
#[test]
fn y_y_in_the_constant_too() {
    let wrong = [MULTIPLY[0], FinishWithConstant(2), Message(4), Open(4)];
    assert!(factor_counts(&wrong, [&[1, 2], &[2, 1]]));
    assert!(!factor_counts(&wrong, [&[1, 2], &[2, 2]]));
    assert!(!chain_counts(FinishWithConstant(2), [&[0, 1], &[0, 2]]));
}
