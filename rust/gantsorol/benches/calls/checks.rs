//! The fastest Rust answers as the second implementation does.

use reference::random::{check_points, paperwork, script, unwritten, written, Call, Rng};
use reference::random::{Paperwork, PaperworkOutcome, WriteMessage};
use reference::{Library, Shape, REFERENCE};

use crate::fastest;

pub fn all() {
    openings();
    factory();
    lines();
    long_lines();
}

/// The fastest opening answers as the second implementation does, on every opening of some scripts.
fn openings() {
    let mut openings = 0;
    for seed in 0..300 {
        let script = script(seed, 60);
        let mut state = script.state();
        for (step, outcome) in script.steps.iter().zip(script.replay(&REFERENCE)) {
            if let Call::Open { row, record } = &step.call {
                let copy = step.damaged(&state);
                let session = crate::inputs::given(&copy.session);
                let by_value = fastest::open_by_value(session.clone(), &copy.rows, *row, record);
                let answer = fastest::open(session, &copy.rows, *row, record);
                for answer in [answer, by_value] {
                    let (ours, expected) =
                        ((answer.refusal, answer.value), (outcome.refusal, outcome.value));
                    assert_eq!(ours, expected, "seed {seed}: {step:?}");
                }
                openings += 1;
            }
            if !step.trial {
                state = outcome.state;
            }
        }
    }
    println!("the fastest opening agrees on {openings} openings");
}

/// And the fastest factory's row and other draw are what the second implementation writes, at every kind of size.
fn factory() {
    let mut rng = Rng::new(1);
    let sizes = [(2, 1), (3, 1), (32, 31), (33, 1), (100, 50), (255, 254)];
    for (n, t, k) in sizes.into_iter().flat_map(|(n, t)| [1, 2].map(|k| (n, t, k))) {
        let shape = Shape::checked(n, t, k).expect("the shape is right");
        let own = check_points(&mut rng, shape);
        let draw = rng.elements(gantsorol::row_draw_len(n, t, k));
        let [mut ours, mut second] = [(); 2].map(|()| vec![0; gantsorol::packs_len(n, t, k)]);
        assert_eq!(fastest::factory_row(n, t, k, &own, &draw, &mut ours), 0);
        assert_eq!(REFERENCE.factory_row(n, t, k, &own, &draw, &mut second), 0);
        assert_eq!(ours, second, "{n}, {t}, {k}");
        let posts: Vec<u32> = (1..=n as u32).filter(|post| post % 3 > 0).take(t).collect();
        let listed: Vec<usize> = posts.iter().map(|&post| post as usize).collect();
        let [mut ours, mut second] = [(); 2].map(|()| vec![0; draw.len()]);
        assert_eq!(fastest::other_draw([n, t, k], &own, &draw, [3, 4], &posts, &mut ours), 0);
        assert_eq!(REFERENCE.other_draw(n, t, k, &own, &draw, 3, 4, &listed, &mut second), 0);
        assert_eq!(ours, second, "{n}, {t}, {k}");
    }
}

/// A writer's answer, as the second implementation tells it.
fn told(gantsorol::Written { refusal, len: length }: gantsorol::Written) -> reference::Written {
    reference::Written { refusal, length }
}

/// What the fastest reader and writers make of a call, if it is theirs.
fn performed(work: &Paperwork) -> Option<PaperworkOutcome> {
    match *work {
        Paperwork::WriteOpening(WriteMessage { n, t, k, row, post, ref numbers, out }) => {
            Some(written(out, |out| told(fastest::write_opening(n, t, k, row, post, numbers, out))))
        }
        Paperwork::WriteMasks(WriteMessage { n, t, k, row, post, ref numbers, out }) => {
            Some(written(out, |out| told(fastest::write_masks(n, t, k, row, post, numbers, out))))
        }
        Paperwork::Read { n, t, k, ref line, out } => {
            let mut out = unwritten(out);
            let gantsorol::Line { refusal, letter, row, post } =
                fastest::read(n, t, k, line, &mut out);
            let read = reference::ReadLine { refusal, letter, row, post };
            Some(PaperworkOutcome::Read { read, out })
        }
        _ => None,
    }
}

/// Lines, right and damaged.
fn lines() {
    let mut lines = 0;
    for seed in 0..100_000 {
        let work = paperwork(seed);
        if let Some(outcome) = performed(&work) {
            assert_eq!(outcome, work.perform(&REFERENCE), "seed {seed}: {work:?}");
            lines += 1;
        }
    }
    println!("the fastest reader and writers agree on {lines} lines\n");
}

/// Lines of large stations, with numbers of each length, read and written back.
fn long_lines() {
    let mut rng = Rng::new(2);
    for (n, t, k) in
        [(32, 31, 1), (32, 31, 2), (33, 1, 2), (255, 127, 1), (255, 254, 1), (255, 254, 2)]
    {
        let mut numbers = rng.elements(gantsorol::masks_len(t, k));
        for (number, place) in numbers.iter_mut().zip(0..) {
            *number >>= place % 31;
        }
        for length in [gantsorol::LONGEST_LINE, 4 * numbers.len()] {
            let (row, post, out) = (93, n, length);
            let message = WriteMessage { n, t, k, row, post, numbers: numbers.clone(), out };
            let work = Paperwork::WriteMasks(message);
            let outcome = work.perform(&REFERENCE);
            assert_eq!(performed(&work).as_ref(), Some(&outcome), "{n}, {t}");
            let PaperworkOutcome::Written { written, mut out } = outcome else { continue };
            out.truncate(written.length);
            let work = Paperwork::Read { n, t, k, line: out, out: numbers.len() };
            assert_eq!(performed(&work), Some(work.perform(&REFERENCE)), "{n}, {t}");
        }
    }
}
