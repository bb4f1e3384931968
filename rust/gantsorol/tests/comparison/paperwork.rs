//! Calls without a session: the factory, lines, pack files, the draw behind another secret; and the bounds of what they take.

use gantsorol::MAX_POSTS;
use reference::random::{
    compare_paperwork, paperwork, Met, Paperwork, PaperworkOutcome, Seen, PAPERWORK_REFUSALS,
};
use reference::{Library, REFERENCE};

use crate::common::{seeds, Verified};
use crate::fixed_seeds;

/// 255 posts are taken and 256 refused, whatever t is; the street program's 33 are taken here.
#[test]
fn the_last_number_of_posts() {
    for (n, refusal) in [(2, 0), (33, 0), (254, 0), (255, 0), (256, 1), (257, 1)] {
        for t in [1, n / 2, n - 1] {
            assert_eq!(Verified.write_deal(n, t, 0, 0, &mut [0; 6]).refusal, refusal, "{n}, {t}");
            for k in [1, 2] {
                let new = Verified.new_session(n, t, n, k, 1, 1);
                assert_eq!(new.refusal, refusal, "{n}, {t}, {k}");
                let read = Verified.read(n, t, k, b"D,0,0\n", &mut vec![0; 2 * (k * t + 1)]);
                assert_eq!(read.refusal, refusal, "{n}, {t}, {k}");
            }
        }
        for t in [0, n] {
            let expected = if refusal == 0 { 2 } else { 1 };
            assert_eq!(Verified.new_session(n, t, n, 1, 1, 0).refusal, expected, "{n}, {t}");
        }
    }
}

/// The longest line, an `M` of the last triple from post 255 with t = 254: 5,619 bytes with one check
/// point a post, 11,207 with two.
#[test]
fn the_longest_line() {
    let (n, t) = (MAX_POSTS, MAX_POSTS - 1);
    for (points, length) in [(1, 5_619), (2, 11_207)] {
        let numbers = vec![gantsorol::MODULUS - 1; gantsorol::masks_len(t, points)];
        let mut line = vec![0; gantsorol::LONGEST_LINE];
        let written = Verified.write_masks(n, t, points, 93, n, &numbers, &mut line);
        assert_eq!((written.refusal, written.length), (0, length));
        let mut list = vec![0; gantsorol::line_list_len(t, points)];
        assert_eq!(Verified.read(n, t, points, &line[..length], &mut list).refusal, 0);
        assert_eq!(list, numbers);
        let short = &mut line[..length - 1];
        assert_eq!(Verified.write_masks(n, t, points, 93, n, &numbers, short).refusal, 12);
    }
}

fn refusal(outcome: &PaperworkOutcome) -> u8 {
    match outcome {
        PaperworkOutcome::Factory { refusal, .. } => *refusal,
        PaperworkOutcome::DealerNumber { refusal, .. } => *refusal,
        PaperworkOutcome::Written { written, .. } => written.refusal,
        PaperworkOutcome::Read { read, .. } => read.refusal,
    }
}

/// What stations of 33 to 255 posts meet.
const SQUARES: Met = &[
    ("FactoryRow", &[0, 2, 4, 5, 8]),
    ("FactoryTriple", &[0, 2, 4, 5, 8]),
    ("WriteDeal", &[0, 2, 6, 8, 12]),
    ("WriteOpening", &[0, 2, 3, 4, 5, 6, 8, 12]),
    ("WriteMasks", &[0, 2, 3, 4, 5, 6, 8, 12]),
    ("Read", &[0, 2, 4, 5, 10, 11]),
    ("WritePack", &[0, 2, 3, 4, 5, 6, 7, 8, 12]),
    ("OtherDraw", &[0, 2, 4, 5, 8, 18, 19]),
];

/// The number of posts; of a dealer's number none.
fn posts(work: &Paperwork) -> usize {
    match *work {
        Paperwork::FactoryRow { n, .. }
        | Paperwork::FactoryTriple { n, .. }
        | Paperwork::WriteDeal { n, .. }
        | Paperwork::Read { n, .. } => n,
        Paperwork::WriteOpening(ref message) | Paperwork::WriteMasks(ref message) => message.n,
        Paperwork::WritePack(ref pack) => pack.n,
        Paperwork::OtherDraw(ref other) => other.n,
        Paperwork::DealerNumber { .. } => 0,
    }
}

#[test]
fn factory_and_lines() {
    let (mut seen, mut squares) = (Seen::default(), Seen::default());
    for seed in seeds(150_000) {
        let work: Paperwork = paperwork(seed);
        if let Some(difference) = compare_paperwork(&work, &Verified, &REFERENCE) {
            panic!("seed {seed}, the verified library on the left:\n{difference}");
        }
        let refusal = refusal(&work.perform(&Verified));
        seen.note(&work, refusal);
        if (33..=MAX_POSTS).contains(&posts(&work)) {
            squares.note(&work, refusal);
        }
    }
    if fixed_seeds() {
        seen.assert_met(PAPERWORK_REFUSALS);
        squares.assert_met(SQUARES);
    }
}
