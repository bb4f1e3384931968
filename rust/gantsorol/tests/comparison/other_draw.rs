//! The draw behind another secret: every n to 8 with every t and every set of posts, random stations to 255 posts, check points that
//! are often equal; what the listed posts see of it.

use gantsorol::MAX_POSTS;
use reference::random::{unwritten, Rng};
use reference::{Library, Shape, REFERENCE};

use crate::common::{seeds, Verified};
use crate::fixed_seeds;

/// One call, and what it answers.
struct Asked {
    shape: Shape,
    points: Vec<u32>,
    draw: Vec<u32>,
    secret: u32,
    wanted: u32,
    posts: Vec<usize>,
}

impl Asked {
    /// Check points from a few numbers, so that many are equal, or from all.
    fn new(rng: &mut Rng, shape: Shape, posts: Vec<usize>, equal: bool) -> Self {
        let few = 1 + rng.below(4 * shape.posts()) as u32;
        let any = rng.one_in(2);
        let mut point = || if any { rng.element().max(1) } else { 1 + rng.element() % few };
        let points = (0..shape.all_points()).map(|_| point()).collect();
        let (secret, other) = (rng.element(), rng.element());
        let wanted = if equal { secret } else { other };
        Self { shape, points, draw: rng.elements(shape.row_draw()), secret, wanted, posts }
    }

    /// The refusal and the list, of both implementations the same.
    #[track_caller]
    fn answer(&self) -> (u8, Vec<u32>) {
        let Self { shape, points, draw, secret, wanted, posts } = self;
        let (n, t, k) = (shape.posts(), shape.threshold(), shape.points());
        let [mut ours, mut second] = [(); 2].map(|()| unwritten(draw.len()));
        let refusal =
            Verified.other_draw(n, t, k, points, draw, *secret, *wanted, posts, &mut ours);
        let again =
            REFERENCE.other_draw(n, t, k, points, draw, *secret, *wanted, posts, &mut second);
        assert_eq!((refusal, &ours), (again, &second), "{n}, {t}, {k}: {posts:?}");
        (refusal, ours)
    }

    /// The listed posts' packs of both draws are the same, and so is c.
    #[track_caller]
    fn check_seen(&self, other: &[u32]) {
        let Self { shape, points, draw, secret, wanted, posts } = self;
        let (n, t, k) = (shape.posts(), shape.threshold(), shape.points());
        let packs = |draw: &[u32]| {
            let mut packs = vec![0; gantsorol::packs_len(n, t, k)];
            assert_eq!(Verified.factory_row(n, t, k, points, draw, &mut packs), 0);
            packs
        };
        let (packs, others) = (packs(draw), packs(other));
        let row = gantsorol::row_len(n, t, k);
        for post in posts {
            let part = (post - 1) * row..post * row;
            assert_eq!(
                packs[part.clone()],
                others[part],
                "{n}, {t}, {k}: post {post} of {posts:?}"
            );
        }
        assert_eq!(
            Verified.dealer_number(*secret, draw[0]),
            Verified.dealer_number(*wanted, other[0])
        );
    }
}

fn shape(n: usize, t: usize, k: usize) -> Shape {
    Shape::checked(n, t, k).expect("the shape is right")
}

/// Every set of posts: up to t are taken, more get 19, all with equal secrets.
#[test]
fn every_set_of_posts_to_eight() {
    let mut rng = Rng::new(14);
    let mut met = [0; 3];
    for n in 2..=8 {
        for (t, k) in (1..n).flat_map(|t| [(t, 1), (t, 2)]) {
            for set in 0..1usize << n {
                let posts: Vec<usize> = (1..=n).filter(|post| set >> (post - 1) & 1 == 1).collect();
                let (many, equal) = (posts.len() > t, rng.one_in(4));
                let asked = Asked::new(&mut rng, shape(n, t, k), posts, equal);
                let (refusal, other) = asked.answer();
                let differ = asked.secret != asked.wanted;
                assert_eq!(refusal, if many && differ { 19 } else { 0 });
                if refusal == 0 {
                    asked.check_seen(&other);
                    assert_eq!(other == asked.draw, !differ);
                }
                met[usize::from(refusal != 0) + 2 * usize::from(!differ && many)] += 1;
            }
        }
    }
    assert!(met.iter().all(|&count| count > 500), "{met:?}");
}

/// Random stations, among them the largest.
#[test]
fn random_stations_to_255_posts() {
    let mut large = 0;
    for seed in seeds(1_500) {
        let mut rng = Rng::new(seed);
        let n = if rng.one_in(4) { rng.between(33, MAX_POSTS) } else { rng.between(2, 32) };
        let t = if rng.one_in(4) { n - 1 } else { rng.between(1, n - 1) };
        let (k, count) = (rng.between(1, 2), if rng.one_in(2) { t } else { rng.below(t + 1) });
        let mut posts: Vec<usize> = (1..=n).collect();
        while posts.len() > count {
            let place = rng.below(posts.len());
            posts.remove(place);
        }
        let asked = Asked::new(&mut rng, shape(n, t, k), posts, false);
        let (refusal, other) = asked.answer();
        assert_eq!(refusal, 0, "seed {seed}");
        if n < 64 {
            asked.check_seen(&other);
        }
        large += usize::from(n > 200);
    }
    assert!(!fixed_seeds() || large > 50, "only {large} large stations");
}

/// A list of posts is refused with 18 before 19 and also with equal secrets; the lent list stays as it was.
#[test]
fn lists_of_posts_that_are_none() {
    let mut rng = Rng::new(18);
    let lists: [&[usize]; 9] = [
        &[0],
        &[6],
        &[1, 1],
        &[2, 1],
        &[1, 2, 2, 3],
        &[0, 1, 2, 3],
        &[3, 4, 5, 6],
        &[1, 2, 3, 4, 5, 6],
        &[1 << 32 | 1],
    ];
    for k in [1, 2] {
        for posts in lists {
            for equal in [false, true] {
                let asked = Asked::new(&mut rng, shape(5, 2, k), posts.to_vec(), equal);
                assert_eq!(asked.answer(), (18, unwritten(asked.draw.len())), "{posts:?}");
            }
        }
    }
}
