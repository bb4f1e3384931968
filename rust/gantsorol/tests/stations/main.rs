//! Whole stations through the binding, their numbers sent as lines: numbers opened equal the plain
//! sums, t posts get 9, and forged polynomials are rejected.

#[path = "../common/mod.rs"]
mod common;

mod arithmetic;
mod liars;
mod post;
mod secrets;
mod station;

use arithmetic::{check_products, check_relations, check_sums};
use common::seeds;
use gantsorol::Refusal;
use liars::{block, pass_at, with_liars};
use reference::random::Rng;
use reference::{Element, MODULUS};
use secrets::{mixed, shared_secret, Masked};
use station::Station;

type Field = Element<MODULUS>;

/// A check of one station with a seed.
type Check = fn(&mut Rng, Station, u64);

fn random_stations(count: u64, check: Check) {
    for seed in seeds(count) {
        let mut rng = Rng::new(seed);
        let station = Station::random(&mut rng);
        check(&mut rng, station, seed);
    }
}

fn stations_of_every_n_and_t(check: Check) {
    for (n, t) in (2..=32).flat_map(|n| (1..n).map(move |t| (n, t))) {
        for points in [1, 2] {
            let seed = (n * 32 + t) as u64;
            let mut rng = Rng::new(seed);
            let station = Station::new(&mut rng, n, t, points);
            check(&mut rng, station, seed);
        }
    }
}

/// Squares: t small, in the middle and n − 1; n, t and the number of check points a post.
const SQUARES: [(usize, usize, usize); 10] = [
    (33, 16, 1),
    (33, 32, 2),
    (64, 63, 1),
    (100, 3, 2),
    (200, 150, 1),
    (255, 1, 1),
    (255, 1, 2),
    (255, 127, 1),
    (255, 127, 2),
    (255, 254, 1),
];

fn squares(check: Check) {
    for (n, t, points) in SQUARES {
        let mut rng = Rng::new((n * 256 + t) as u64);
        let station = Station::new(&mut rng, n, t, points);
        check(&mut rng, station, 0);
    }
}

#[test]
fn sums_and_products_of_squares() {
    squares(check_sums);
    squares(check_products);
}

#[test]
fn relations_of_squares() {
    squares(check_relations);
}

#[test]
fn relations_open_to_the_plain_sums() {
    random_stations(200, check_relations);
}

#[test]
fn relations_for_every_n_and_t() {
    stations_of_every_n_and_t(check_relations);
}

#[test]
fn sums_open_to_the_plain_ones() {
    random_stations(300, check_sums);
}

#[test]
fn sums_for_every_n_and_t() {
    stations_of_every_n_and_t(check_sums);
}

#[test]
fn products_open_to_the_plain_ones() {
    random_stations(200, check_products);
}

#[test]
fn products_for_every_n_and_t() {
    stations_of_every_n_and_t(check_products);
}

fn check_few(rng: &mut Rng, mut station: Station, seed: u64) {
    let (secret, own, lines) = shared_secret(rng, &mut station);
    // The post itself is one of them.
    for (others, expected) in
        [(station.t - 1, Err(Refusal::TooFewAccepted)), (station.t, Ok(secret))]
    {
        let record = station.record(rng, &lines[..others]);
        assert_eq!(station.posts[own].try_open(7, &record), expected, "seed {seed}");
    }
}

#[test]
fn t_posts_get_9_and_any_t_plus_1_the_number() {
    random_stations(500, check_few);
    squares(check_few);
}

fn check_forged(rng: &mut Rng, mut station: Station, seed: u64) {
    let (secret, own, lines) = shared_secret(rng, &mut station);
    let (n, t) = (station.n, station.t);
    // With n − 1 − t liars among the others t are left, with one more t − 1.
    for (liars, expected) in [(n - 1 - t, Ok(secret)), (n - t, Err(Refusal::TooFewAccepted))] {
        let mut record = station.record(rng, &lines);
        with_liars(rng, &station, own, liars, &mut record);
        assert_eq!(station.posts[own].try_open(7, &record), expected, "seed {seed}");
    }
}

#[test]
fn forged_polynomials_are_rejected() {
    random_stations(500, check_forged);
    squares(check_forged);
}

/// Either record of a finish may be the short one.
fn check_few_masks(rng: &mut Rng, station: Station, _: u64) {
    let masked = Masked::new(rng, station);
    let t = masked.station.t;
    let records = |others| masked.station.records(rng, &masked.lines[..others]);
    let [few, enough] = [t - 1, t].map(records);
    masked.check(rng, &mixed(&enough, &few), &enough);
}

#[test]
fn t_masks_get_9_and_any_t_plus_1_the_product() {
    random_stations(200, check_few_masks);
    squares(check_few_masks);
}

/// The liars of the two records are other posts.
fn check_forged_masks(rng: &mut Rng, station: Station, _: u64) {
    let masked = Masked::new(rng, station);
    let (n, t, own) = (masked.station.n, masked.station.t, masked.own);
    let [enough, few] = [n - 1 - t, n - t].map(|liars| {
        let mut records = masked.all.clone();
        for record in &mut records {
            with_liars(rng, &masked.station, own, liars, record);
        }
        records
    });
    masked.check(rng, &mixed(&enough, &few), &enough);
}

#[test]
fn forged_masks_are_rejected() {
    random_stations(200, check_forged_masks);
    squares(check_forged_masks);
}

/// A liar who knows the post's check point passes there, and shifts the number: 3(z − w) added.
#[test]
fn a_forged_polynomial_passes_only_where_it_meets_the_true_one() {
    let mut rng = Rng::new(1);
    let mut station = Station::new(&mut rng, 2, 1, 1);
    station.share(&mut rng, 7, 5);
    let lines = station.lines(&mut rng, 7);
    let honest = station.record(&mut rng, &lines);
    let w = Field::from(station.check_points[0]);
    for (shift, passes) in [(0, true), (1, false), (MODULUS - 1, false)] {
        let mut record = honest.clone();
        record[4] = (Field::from(record[4]) - Field::from(3) * w + shift.into()).value();
        record[5] = (Field::from(record[5]) + 3.into()).value();
        let opened = station.posts[0].try_open(7, &record);
        assert_eq!(opened.is_ok(), passes);
        assert_ne!(opened, Ok(5));
    }
}

/// A liar who knows one of a post's two check points passes there and is refused by the other; who knows both
/// passes, with a multiple of (z − w)(z − x), and shifts the number, and further posts show it.
#[test]
fn a_lie_that_passes_one_value_is_refused_by_the_other() {
    let mut rng = Rng::new(2);
    let mut station = Station::new(&mut rng, 3, 1, 2);
    station.share(&mut rng, 7, 5);
    let lines = station.lines(&mut rng, 7);
    let honest = station.record(&mut rng, &lines);
    let [w, x] = *station.check_points_of(0) else { panic!("two points a post") };
    assert_ne!(w, x);
    let few: Vec<_> = lines[..2].to_vec();
    let few = station.record(&mut rng, &few);
    for point in [w, x] {
        let lied = |record: &[u32]| {
            let mut record = record.to_vec();
            pass_at(point, 3, block(&station, 1, &mut record));
            station.posts[0].try_open(7, &record)
        };
        assert_eq!(lied(&few), Err(Refusal::TooFewAccepted));
        assert_eq!(lied(&honest), Ok(5));
    }
    let both = |record: &[u32]| {
        let mut record = record.to_vec();
        let polynomial = block(&station, 1, &mut record);
        let [w, x] = [w, x].map(Field::from);
        let change = [w * x, Field::from(0) - w - x, 1.into()];
        for (number, change) in polynomial.iter_mut().zip(change) {
            *number = (Field::from(*number) + change).value();
        }
        station.posts[0].try_open(7, &record)
    };
    assert!(both(&few).is_ok_and(|opened| opened != 5));
    assert_eq!(both(&honest), Err(Refusal::InconsistentShares));
}
