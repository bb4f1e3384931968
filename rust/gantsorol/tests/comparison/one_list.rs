//! Lists that are only read may be one list.

use reference::random::{odd_triple, wild_state, Rng, State};
use reference::{Library, Session, REFERENCE};

use crate::common::{seeds, Verified};
use crate::fixed_seeds;

/// Both records here are parts of a list.
#[test]
fn two_records_that_are_parts_of_one_list() {
    let mut opened = 0;
    for seed in seeds(5_000) {
        let mut rng = Rng::new(seed);
        let (State { session, rows, .. }, first) = odd_triple(&mut rng, 5);
        let list: Vec<u32> =
            (0..9).map(|place| u32::from(place % 3 == 0 || rng.one_in(9))).collect();
        let [left, right] =
            [(); 2].map(|()| rng.pick(&[0, 0, 3, 3, 1, 2])).map(|start| &list[start..start + 6]);
        let answer = Verified.open_masks(session, &rows, first, left, right);
        let expected = REFERENCE.open_masks(session, &rows, first, left, right);
        assert_eq!(answer, expected, "seed {seed}");
        opened += u64::from(answer.refusal == 0);
    }
    assert!(!fixed_seeds() || opened > 50, "only {opened} triples opened");
}

/// The record here is a part of the rows.
#[test]
fn a_record_that_is_a_part_of_the_rows() {
    let mut opened = 0;
    for seed in seeds(2_000) {
        let mut rng = Rng::new(seed);
        let session = Session { marks: [2; 96], ..wild_state(&mut rng, true).session };
        // Mostly zeros: the zero polynomial is accepted now and then.
        let rows: Vec<u32> = (0..96 * 6).map(|_| u32::from(rng.one_in(3))).collect();
        let (row, start) = (rng.below(96), rng.below(571));
        let record = rows[start..start + 6].to_vec();
        let ours = Verified.open(session, &rows, row, &rows[start..start + 6]);
        assert_eq!(ours, REFERENCE.open(session, &rows, row, &record), "seed {seed}");
        opened += u64::from(ours.refusal == 0);
    }
    assert!(!fixed_seeds() || opened > 50, "only {opened} openings");
}
