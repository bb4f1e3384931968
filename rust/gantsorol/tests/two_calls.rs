//! The two calls of a finish (document 02, (viii)): each refusal of the two at its limit and in its order, what they leave, and that a
//! refused one leaves everything. The triple stands at row 2, its factors at rows 0 and 1.

use gantsorol::{block_len, message_len, record_len, row_len, rows_len, triple_draw_len};
use gantsorol::{Answer, Session, MODULUS, ROWS};

const N: usize = 3;
const T: usize = 1;
/// With one check point a post, and with two.
const CHECK_POINTS: [&[u32]; 2] = [&[2, 3, 5], &[2, 4, 3, 5, 5, 7]];
const FIRST: usize = 2;
const P: u32 = MODULUS;

/// Post 1, whose masks were sent, and what all posts hold of rows 0 to 4.
struct Ready {
    session: Session,
    rows: Vec<u32>,
    records: [Vec<u32>; 2],
}

/// One number less another.
fn minus(x: u32, y: u32) -> u32 {
    ((u64::from(x) + u64::from(P) - u64::from(y)) % u64::from(P)) as u32
}

/// A record of a − l: every post's coefficients of a row less those of another.
fn masked(points: usize, factor: &[u32], row: &[u32]) -> Vec<u32> {
    let (width, block) = (row_len(N, T, points), block_len(T, points));
    let mut record = vec![0; record_len(N, T, points)];
    for post in 0..N {
        record[post * block] = 1;
        for k in 0..message_len(T, points) {
            let place = post * width + k;
            record[post * block + 1 + k] = minus(factor[place], row[place]);
        }
    }
    record
}

/// The draws of a, b and the triple: f first, then what v1, v2 and v3 have up to t, and behind it what they have with two points.
const DRAWS: [[&[u32]; 4]; 5] = [
    [&[6, 4], &[1, 2, 9], &[3, 1, 8], &[5, 6, 7]],
    [&[7, 5], &[2, 1, 4], &[1, 1, 5], &[4, 2, 6]],
    [&[2, 1], &[5, 1, 3], &[3, 2, 1], &[1, 7, 2]],
    [&[5, 2], &[1, 1, 4], &[6, 3, 5], &[2, 2, 6]],
    // without f's constant
    [&[9], &[4, 1, 7], &[8, 3, 8], &[5, 2, 9]],
];

/// a = 6 and b = 7 with l = 2 and l' = 5, so y = 4 and y' = 2 (document 01, P9).
fn ready(points: usize) -> Ready {
    let (width, count) = (row_len(N, T, points), message_len(T, points));
    let draw = |[f, vs @ ..]: [&[u32]; 4]| -> Vec<u32> {
        f.iter().chain(vs.iter().flat_map(|v| &v[..count])).copied().collect()
    };
    let [of_a, of_b, triple_draw @ ..] = DRAWS.map(draw);
    let (triple_draw, own) = (triple_draw.concat(), CHECK_POINTS[points - 1]);
    assert_eq!(triple_draw.len(), triple_draw_len(N, T, points));
    let mut packs = vec![0; 5 * N * width];
    let (raw, triple) = packs.split_at_mut(2 * N * width);
    let (a, b) = raw.split_at_mut(N * width);
    gantsorol::factory_row(N, T, points, own, &of_a, a).expect("a draw");
    gantsorol::factory_row(N, T, points, own, &of_b, b).expect("a draw");
    gantsorol::factory_triple(N, T, points, own, &triple_draw, triple).expect("a draw");
    let shared: Vec<&[u32]> = packs.chunks(N * width).collect();
    let mut rows = vec![0; rows_len(N, T, points)];
    for (row, all) in shared.iter().enumerate() {
        rows[row * width..][..width].copy_from_slice(&all[..width]);
    }
    let mut session = Session::new(N, T, 1, &own[..points]).session;
    session.marks[..5].copy_from_slice(&[2, 2, 5, 4, 4]);
    (session.factor_a[FIRST], session.factor_b[FIRST]) = (0, 1);
    let records = [masked(points, shared[0], shared[2]), masked(points, shared[1], shared[3])];
    Ready { session, rows, records }
}

/// A check of a post with one check point, and of one with two.
fn with_both(check: impl Fn(&dyn Fn() -> Ready, usize)) {
    for points in [1, 2] {
        check(&|| ready(points), points);
    }
}

impl Ready {
    fn collect(&self) -> Answer {
        let [left, right] = &self.records;
        self.session.clone().collect(&self.rows, FIRST, left, right)
    }

    /// The post once it has collected.
    fn collected(mut self) -> Self {
        let answer = self.collect();
        assert_eq!((answer.refusal, answer.value), (0, 0));
        self.session = answer.session;
        self
    }

    /// The refusal of a collect, which leaves the session as it was.
    #[track_caller]
    fn check_collect(&self, expected: u8) {
        let answer = self.collect();
        assert_eq!((answer.refusal, answer.value), (expected, 0));
        assert_eq!(answer.session == self.session, expected != 0);
    }

    /// The refusal of a multiply; refused, it leaves session and rows as they were.
    #[track_caller]
    fn check_multiply(&self, expected: u8) {
        let mut rows = self.rows.clone();
        let answer = self.session.clone().multiply(&mut rows, FIRST);
        assert_eq!((answer.refusal, answer.value), (expected, 0));
        assert_eq!(answer.session == self.session, expected != 0);
        assert_eq!(rows == self.rows, expected != 0);
    }
}

#[test]
fn a_new_session_remembers_zeros() {
    for own in [&[2][..], &[2, 4]] {
        let session = Session::new(N, T, 1, own).session;
        assert_eq!((session.y_a, session.y_b), ([0; ROWS], [0; ROWS]));
    }
}

#[test]
fn collect_remembers_and_marks_the_first_row() {
    with_both(|ready, _| {
        let before = ready();
        let mut expected = before.session.clone();
        (expected.marks[FIRST], expected.y_a[FIRST], expected.y_b[FIRST]) = (7, 4, 2);
        assert_eq!(before.collected().session, expected);
    });
}

#[test]
fn multiply_writes_the_third_row_alone_and_the_numbers_stay() {
    with_both(|ready, points| {
        let post = ready().collected();
        let mut rows = post.rows.clone();
        let answer = post.session.clone().multiply(&mut rows, FIRST);
        assert_eq!((answer.refusal, answer.value), (0, 0));
        let mut expected = post.session.clone();
        expected.marks[FIRST..][..3].copy_from_slice(&[6, 6, 2]);
        assert_eq!(answer.session, expected);
        let width = row_len(N, T, points);
        let third = (FIRST + 2) * width;
        assert_eq!(rows[..third], post.rows[..third]);
        assert_eq!(rows[third + width..], post.rows[third + width..]);
        // l'' + 4 l' + 2 l, and 8 more in the public sums
        let [l, l2, l3] = [0, 1, 2].map(|k| &post.rows[(FIRST + k) * width..][..width]);
        for place in 0..width {
            let fee = if place < width - N { 0 } else { 8 };
            assert_eq!(rows[third + place], (l3[place] + 4 * l2[place] + 2 * l[place] + fee) % P);
        }
    });
}

#[test]
fn one_after_the_other_and_each_once() {
    with_both(|ready, _| {
        let post = ready();
        post.check_multiply(7);
        let post = post.collected();
        post.check_collect(7);
        let mut rows = post.rows.clone();
        let session = post.session.clone().multiply(&mut rows, FIRST).session;
        let post = Ready { session, rows, ..post };
        post.check_collect(7);
        post.check_multiply(7);
    });
}

/// The third row's numbers are multiply's to look at, the factor rows' are collect's.
#[test]
fn what_each_of_them_reads() {
    with_both(|ready, points| {
        let width = row_len(N, T, points);
        for (row, collect, multiply) in [(0, 8, 0), (1, 8, 0), (2, 8, 8), (3, 8, 8), (4, 0, 8)] {
            let mut post = ready();
            post.rows[row * width + width - 1] = P;
            post.check_collect(collect);
            let mut post = ready().collected();
            post.rows[row * width + width - 1] = P;
            post.check_multiply(multiply);
        }
    });
}

#[test]
fn factor_rows_that_are_not_held() {
    with_both(|ready, _| {
        for change in [
            (|s: &mut Session| s.marks[0] = 1) as fn(&mut Session),
            |s| s.marks[1] = 6,
            |s| s.factor_a[FIRST] = 95,
            |s| s.factor_b[FIRST] = 96,
            |s| s.factor_b[FIRST] = 255,
        ] {
            let mut post = ready();
            change(&mut post.session);
            post.check_collect(7);
            let mut post = ready().collected();
            change(&mut post.session);
            post.check_multiply(7);
        }
    });
}

#[test]
fn remembered_numbers() {
    with_both(|ready, _| {
        for (number, expected) in [(P - 1, 0), (P, 8), (u32::MAX, 8)] {
            let mut post = ready().collected();
            post.session.y_a[FIRST] = number;
            post.check_multiply(expected);
            let mut post = ready().collected();
            post.session.y_b[FIRST] = number;
            post.check_multiply(expected);
            // collect writes them over, and other rows' are nobody's
            let mut post = ready();
            (post.session.y_a[FIRST], post.session.y_b[FIRST]) = (number, number);
            (post.session.y_a[9], post.session.y_b[9]) = (number, number);
            assert_eq!(post.collect().refusal, 0);
            let answer = post.collect();
            assert_eq!((answer.session.y_a[FIRST], answer.session.y_a[9]), (4, number));
            let mut post = ready().collected();
            (post.session.y_a[9], post.session.y_b[9]) = (number, number);
            post.check_multiply(0);
        }
    });
}

#[test]
fn too_few_in_either_record() {
    with_both(|ready, _| {
        for which in [0, 1] {
            let mut post = ready();
            post.records[which].fill(0);
            post.check_collect(9);
        }
    });
}

#[test]
fn the_order_of_refusals() {
    with_both(|ready, _| {
        let mut post = ready().collected();
        (post.session.y_a[FIRST], post.session.marks[FIRST + 1]) = (P, 0);
        post.check_multiply(7);
        let answer = post.session.clone().multiply(&mut post.rows.clone(), ROWS - 2);
        assert_eq!(answer.refusal, 6);
        let answer = post.session.clone().multiply(&mut [], ROWS - 2);
        assert_eq!(answer.refusal, 5);
        let mut broken = post.session.clone();
        broken.first = 0;
        assert_eq!(broken.multiply(&mut [], ROWS - 2).refusal, 4);
    });
}
