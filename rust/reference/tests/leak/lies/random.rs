//! Random lists of calls, each with a random last phase; the plain book says which secrets agree.

use super::*;
use plain_book::numbers;
use reference::random::Rng;
use reference::{Term, NO_ROW};
use Step::PlaceFixed;

const P: u32 = 5;

/// The triple's rows are 3 to 5.
const TRIPLE: usize = 3;

const TERMS: &[Term] = &[
    Term { coefficient: 3, row: 0, second: 1, first: TRIPLE },
    Term { coefficient: 1, row: 1, second: NO_ROW, first: 0 },
];

const PLAIN_TERMS: &[Term] = &[
    Term { coefficient: 2, row: 0, second: NO_ROW, first: 0 },
    Term { coefficient: 4, row: 9, second: NO_ROW, first: 0 },
];

/// Records of any lines, first, second and third ones.
const RECORDS: [&[(usize, usize)]; 7] = [
    ALL_FIRST,
    &[],
    &[(1, 0)],
    &[(2, 0), (3, 0)],
    &[(1, 1), (3, 0)],
    &[(1, 2), (2, 1)],
    &[(1, 1), (2, 1), (3, 1)],
];

/// Rows drawn raw, mostly dealt by nobody of the posts.
fn some_raw(rng: &mut Rng, count: usize) -> Vec<Raw> {
    let dealer = |rng: &mut Rng| if rng.one_in(6) { rng.between(1, 3) } else { 0 };
    (0..count).map(|row| Raw { dealer: dealer(rng), ..raw(row) }).collect()
}

/// A row that may be held.
fn some_row(rng: &mut Rng) -> usize {
    rng.pick(&[0, 1, 2, 5, 9, 9, 10, 11])
}

/// Loads, lines of callers and deals, now and then one missing.
fn beginning(rng: &mut Rng, plan: &Plan) -> Vec<Step> {
    let mut steps: Vec<Step> = plan.raw.iter().map(|raw| LoadRow(raw.row)).collect();
    steps.extend(plan.triples.iter().map(|&first| LoadTriple(first)));
    if rng.one_in(3) {
        steps.push(Callers(rng.pick(&["A,0,\n", "A,1,1\n", "A,0,2,3\n", "A,1,2\n", "A,2,\n"])));
    }
    for raw in &plan.raw {
        match rng.below(12) {
            0 => {}
            1..=3 => steps.extend([Place { dealer: rng.between(1, 9), row: raw.row }, Turn]),
            4 => steps.extend([PlaceFixed { dealer: 2, line: "O,0,1,1,1\n" }, Turn]),
            _ => steps.push(Deal(raw.row)),
        }
    }
    steps
}

/// A call in the middle.
fn some_call(rng: &mut Rng) -> Vec<Step> {
    let (a, b) = (some_row(rng), some_row(rng));
    match rng.below(11) {
        0..=3 => {
            let (scale, fee) = (rng.below(5) as u32, rng.below(5) as u32);
            vec![Step::Linear { dest: rng.between(9, 11), a, b, scale, fee }]
        }
        4 | 5 => vec![Step::Masks { a, b, first: TRIPLE }, Finish(TRIPLE)],
        6 => vec![Step::Masks { a, b, first: TRIPLE }, OpenMasks(TRIPLE), Multiply(TRIPLE)],
        7 => vec![RelationMasks(TERMS), RelationFinish { terms: TERMS, dest: 10 }],
        8 => vec![RelationFinish { terms: PLAIN_TERMS, dest: 11 }, Turn],
        9 => vec![Message(a), Open(a)],
        _ => vec![Open(a), Multiply(TRIPLE)],
    }
}

fn some_event(rng: &mut Rng, group: &[usize]) -> Event {
    let post = rng.between(1, 3);
    match rng.below(5) {
        0 | 1 if group.contains(&post) => Says { post, what: rng.pick(&CHOICES) },
        0..=2 if !group.contains(&post) => Called { post, by: rng.between(1, 3) },
        _ => Opens { post, with: rng.pick(&RECORDS) },
    }
}

/// Three check points, those of two liars different: equal ones leave more to chance than can be counted.
fn some_points(rng: &mut Rng, group: &[usize]) -> [u32; 3] {
    let mut points = [(); 3].map(|()| rng.between(1, 4) as u32);
    if let [one, other] = *group {
        points[one - 1] = points[other - 1] % 4 + 1;
    }
    points
}

/// Calls that name rows which aren't held, or a triple which isn't drawn, are refused.
fn some_plan(rng: &mut Rng, group: &[usize]) -> Plan {
    let (count, triples) = rng.pick(&[(2, &[TRIPLE] as &[usize]), (2, &[TRIPLE]), (3, &[])]);
    let mut plan = plan(3, group.len(), &some_raw(rng, count), triples, &[]);
    plan.steps = beginning(rng, &plan);
    for _ in 0..rng.between(1, 4) {
        plan.steps.extend(some_call(rng));
    }
    let events = (0..rng.between(4, 12)).map(|_| some_event(rng, group)).collect();
    plan.last = Some(Last { row: some_row(rng), events });
    plan
}

/// Which calls are refused, at all posts.
fn refused(plan: &Plan, points: &[u32], group: &[usize], seen: Condition) -> Vec<bool> {
    let shape = Shape::checked(plan.n, plan.t, plan.k).unwrap();
    let rows = seen.row_draws::<P>(shape, points);
    let triples = seen.triple_draws::<P>(shape, points);
    let mut station = Station::<P>::new(plan, group);
    let draw = draws::Draw {
        points,
        rows: vec![&rows[0]; plan.raw.len()],
        triples: vec![&triples[0]; plan.triples.len()],
    };
    station.record(&draw, &vec![0; plan.raw.len()]);
    let alike = |posts: &[u8]| {
        assert!(posts.iter().all(|&refusal| refusal == posts[0]), "all posts answer alike");
        posts[0] != 0
    };
    station.refusals().chunks(plan.n).map(alike).collect()
}

/// What the group may know of a list of secrets: those of its own rows, and the numbers opened.
type Known = (Vec<u32>, Vec<Option<u32>>);

/// All lists of secrets, each with what the group may know of it, and with the last row's number.
fn known(plan: &Plan, refused: &[bool], group: &[usize]) -> Vec<(Vec<u32>, Known, Option<u32>)> {
    let row = plan.last.as_ref().expect("a last phase").row;
    let count = plan.raw.len() as u32;
    let lists = (0..P.pow(count)).map(|list| (0..count).map(|raw| list / P.pow(raw) % P).collect());
    let with_numbers = |secrets: Vec<u32>| {
        let own = plan.raw.iter().zip(&secrets).filter(|(raw, _)| group.contains(&raw.dealer));
        let own: Vec<u32> = own.map(|(_, &secret)| secret).collect();
        let (opened, last) = numbers::<P>(plan, refused, &secrets, row);
        (secrets, (own, opened), last)
    };
    lists.map(with_numbers).collect()
}

/// Checks one plan: whether two lists that agree were found, and whether a number that differs showed.
fn check(seed: u64) -> (bool, bool) {
    let mut rng = Rng::new(seed);
    let group = rng.pick(&[&[1usize] as &[usize], &[2], &[3], &[1, 2], &[1, 3], &[2, 3]]);
    let plan = some_plan(&mut rng, group);
    let points = some_points(&mut rng, group);
    let seen = Condition { own: group, checks: true, sums: &[1, 2, 3], ..ALL };
    let refused = refused(&plan, &points, group, seen);
    let lists = known(&plan, &refused, group);
    let (secrets, known, last) = lists[rng.below(lists.len())].clone();
    let counts =
        |other: &[u32]| equal_counts::<P>(&plan, &points, (seen, seen), group, [&secrets, other]);
    let others = |agrees: bool| -> Vec<&[u32]> {
        let fits = |other: &&(Vec<u32>, Known, Option<u32>)| {
            other.0 != secrets && other.1 == known && (other.2 == last) == agrees
        };
        lists.iter().filter(fits).map(|other| other.0.as_slice()).collect()
    };
    let agreeing = rng.pick_any(&others(true));
    let differing = rng.pick_any(&others(false));
    if let Some(other) = agreeing {
        assert!(counts(other), "seed {seed}: {secrets:?} and {other:?}");
    }
    (agreeing.is_some(), differing.is_some_and(|other| !counts(other)))
}

#[test]
fn random_plans() {
    let checked: Vec<(bool, bool)> = (0..120).map(check).collect();
    let agreed = checked.iter().filter(|(agreed, _)| *agreed).count();
    let showed = checked.iter().filter(|(_, showed)| *showed).count();
    assert!(agreed > 100 && showed > 20, "{agreed} agreed, {showed} showed");
}
