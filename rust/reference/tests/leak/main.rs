//! A leak test that can fail.
//!
//! Over a small prime, all draws of small plans are run under two lists of secrets, and the counts
//! of the records of a group of posts are compared: equal where demand 3 says so, different where
//! a rule is broken on purpose.

mod callers;
mod dealers;
mod draws;
mod fee;
mod lies;
mod one_row;
mod other_draw;
mod products;
mod record;
mod relations;
mod two_calls;
mod two_points;
mod two_rows;

use std::collections::HashMap;

use draws::{for_each_draw, Condition, ALL};
use record::{Plan, Raw, Station, Step};
use reference::Shape;
use Step::{Callers, Deal, FeeWithConstant, Finish, FinishWithConstant, LoadAgain, LoadRow};
use Step::{
    LoadTriple, LoadTripleAgain, Message, Multiply, Open, OpenForged, OpenMasks, Overwrite,
};
use Step::{RelationFinish, RelationMasks, Remember, Unbar};

/// Whether every record of the group occurs equally often under both lists of secrets.
fn equal_counts<const P: u32>(
    plan: &Plan,
    points: &[u32],
    (raw, triple): (Condition, Condition),
    group: &[usize],
    secrets: [&[u32]; 2],
) -> bool {
    let shape = Shape::checked(plan.n, plan.t, plan.k).unwrap();
    let row_draws = raw.row_draws::<P>(shape, points);
    let triple_draws = match plan.triples.len() {
        0 => vec![],
        _ => triple.triple_draws::<P>(shape, points),
    };
    let rows = vec![row_draws.as_slice(); plan.raw.len()];
    let triples = vec![triple_draws.as_slice(); plan.triples.len()];
    let mut counts: HashMap<Vec<u8>, i64> = HashMap::new();
    let mut runs = 0u64;
    let mut station = Station::<P>::new(plan, group);
    for_each_draw(points, &rows, &triples, &mut |draw| {
        runs += 1;
        for (list, change) in secrets.into_iter().zip([1, -1]) {
            let record = station.record(draw, list);
            match counts.get_mut(record) {
                Some(count) => *count += change,
                None => _ = counts.insert(record.to_vec(), change),
            }
        }
    });
    assert!(runs > 0 && !counts.is_empty());
    counts.values().all(|&count| count == 0)
}

/// A row dealt by somebody who is no post.
fn raw(row: usize) -> Raw {
    Raw { row, pad_of: row, dealer: 0 }
}

fn plan(n: usize, t: usize, raw: &[Raw], triples: &[usize], steps: &[Step]) -> Plan {
    let (raw, triples, steps) = (raw.to_vec(), triples.to_vec(), steps.to_vec());
    Plan { n, t, k: 1, raw, triples, steps, last: None }
}

/// What post 1 of two sees of its own polynomial and of the other's check value is fixed.
const SEEN_BY_1: Condition = Condition { own: &[1], checks: true, ..ALL };

/// The same, and m1: of a raw row, f(0) and v2 are left to chance.
const SEEN_BY_1_WITH_SUM: Condition = Condition { own: &[1], checks: true, sums: &[1], ..ALL };

/// All that post 1 of two sees of a pack: f(0) alone is left to chance.
const ALL_SEEN_BY_1: Condition = Condition { own: &[1], checks: true, sums: &[1, 2], ..ALL };

const POINTS_5: [[u32; 2]; 3] = [[2, 2], [1, 3], [4, 1]];
