//! Lies about products and relations, by two posts, and with two check points.

use super::*;
use reference::{Term, NO_ROW};

fn counts_with_triple(steps: &[Step], row: usize, what: Choose, secrets: [&[u32]; 2]) -> bool {
    let loads = [LoadRow(0), LoadRow(1), LoadTriple(2), Deal(0), Deal(1)];
    [lie_first, lie_last, lie_again].into_iter().all(|events| {
        let steps = [&loads[..], steps].concat();
        let plan = last(&[raw(0), raw(1)], &[2], &steps, row, events(what));
        equal_counts::<5>(&plan, &[1, 3, 3], (ALL_SEEN, ALL_SEEN), &[1], secrets)
    })
}

#[test]
fn lies_about_a_product() {
    let multiply = [Step::Masks { a: 0, b: 1, first: 2 }, OpenMasks(2), Multiply(2)];
    for what in CHOICES {
        assert!(counts_with_triple(&multiply, 4, what, [&[1, 4], &[2, 2]]));
        assert!(!counts_with_triple(&multiply, 4, what, [&[1, 4], &[2, 4]]));
    }
}

/// u u' + 2 u' in row 9.
const RELATION: &[Term] = &[
    Term { coefficient: 1, row: 0, second: 1, first: 2 },
    Term { coefficient: 2, row: 1, second: NO_ROW, first: 0 },
];

#[test]
fn lies_about_a_relation() {
    let steps = [RelationMasks(RELATION), RelationFinish { terms: RELATION, dest: 9 }];
    for what in [truth::<5>, guess::<5>, moody::<5>] {
        assert!(counts_with_triple(&steps, 9, what, [&[1, 1], &[2, 2]]));
        assert!(!counts_with_triple(&steps, 9, what, [&[1, 1], &[1, 2]]));
    }
}

/// Two posts of three lie, the second after the first; t = 2.
#[test]
fn two_liars() {
    let with: &[(usize, usize)] = &[(1, 1), (2, 0)];
    let events = |[one, other]: [Choose; 2]| {
        vec![
            Says { post: 1, what: one },
            Says { post: 2, what: other },
            Opens { post: 3, with: ALL_FIRST },
            Called { post: 3, by: 3 },
            Says { post: 1, what: one },
            Opens { post: 3, with },
            Opens { post: 3, with: &[(2, 0)] },
            Opens { post: 2, with: ALL_FIRST },
        ]
    };
    let seen = Condition { own: &[1, 2], checks: true, sums: &[1, 2, 3], ..ALL };
    let less = Condition { sums: &[1, 2], ..seen };
    for (points, condition) in [([2, 3, 2], seen), ([1, 1, 1], seen), ([4, 2, 1], less)] {
        for choices in
            [[guess::<5>, moody::<5>], [truth::<5>, guess::<5>], [anything::<5>, echo::<5>]]
        {
            let plan = Plan { t: 2, ..sum(events(choices)) };
            let counts =
                |secrets| equal_counts::<5>(&plan, &points, (condition, ALL), &[1, 2], secrets);
            assert!(counts([&[1, 2], &[3, 1]]));
            assert!(!counts([&[1, 2], &[1, 1]]));
        }
    }
}

/// Two check points a post: a guess must meet both.
#[test]
fn lies_with_two_points() {
    let events = |what| {
        let opens = |with| Opens { post: 2, with };
        let says = Says { post: 1, what };
        vec![says, opens(&[(1, 0)]), Called { post: 2, by: 1 }, says, opens(&[(1, 1)])]
    };
    let condition = Condition { sums: &[1], ..ALL_SEEN_BY_1 };
    for points in [[1, 2, 3, 3], [2, 2, 2, 2], [4, 3, 2, 1]] {
        for what in CHOICES {
            let plan = Plan { n: 2, k: 2, ..sum(events(what)) };
            let counts =
                |secrets| equal_counts::<5>(&plan, &points, (condition, ALL), &[1], secrets);
            assert!(counts([&[1, 2], &[3, 1]]));
            assert!(!counts([&[1, 2], &[1, 1]]));
        }
    }
}
