//! Whole random stations: numbers opened equal the plain sums and products.

mod common;

use common::*;
use reference::random::{check_points, shape, street_shape, Call, Rng, SharedRow};
use reference::{Element, Library, Shape, Written, MODULUS, REFERENCE};

type Field = Element<MODULUS>;

fn station(rng: &mut Rng) -> Station {
    let shape = street_shape(rng);
    Station::random(rng, shape)
}

/// `wanted` posts out of n, at random, and nobody else's message.
fn only_some(rng: &mut Rng, messages: &[Message], wanted: usize) -> Vec<Message> {
    let mut left = wanted;
    let chosen = |(index, message): (usize, &Message)| {
        let take = rng.below(messages.len() - index) < left;
        left -= usize::from(take);
        message.clone().filter(|_| take)
    };
    messages.iter().enumerate().map(chosen).collect()
}

#[test]
fn sums_and_products_open_to_the_plain_ones() {
    for seed in 0..60 {
        let mut rng = Rng::new(seed);
        let station = station(&mut rng);
        assert_sums_and_products(&mut rng, station);
    }
}

fn assert_sums_and_products(rng: &mut Rng, mut station: Station) {
    let [a, b, scale, fee] = [(); 4].map(|()| Field::from(rng.element()));
    for (row, secret) in [(0, a), (1, b)] {
        let shared = SharedRow::random(rng, station.shape);
        station.share(row, &shared, secret.value());
    }
    let triples = [(); 2].map(|()| SharedRow::random_triple(rng, station.shape));
    station.load_triple(2, &triples[0]);
    station.load_triple(93, &triples[1]);
    station.multiply(0, 1, 2);
    let (s, public) = (scale.value(), fee.value());
    station.each(|_| Call::Linear { dest: 5, a: 4, b: 0, scale: s, fee: public });
    station.multiply(5, 5, 93);
    let sum = a * b + scale * a + fee;
    for (row, plain) in [(0, a), (1, b), (4, a * b), (5, sum), (95, sum * sum)] {
        assert_eq!(station.open(row), vec![plain.value(); station.n()]);
    }
}

/// "Squares with up to 255 posts."
#[test]
fn a_square_of_255_posts() {
    let mut rng = Rng::new(3);
    for (n, t, k) in [(33, 16, 1), (255, 3, 1), (100, 3, 2)] {
        let station = Station::random(&mut rng, Shape::checked(n, t, k).unwrap());
        assert_sums_and_products(&mut rng, station);
    }
    let mut station = Station::random(&mut rng, Shape::checked(255, 254, 1).unwrap());
    let shared = SharedRow::random(&mut rng, station.shape);
    station.share(95, &shared, 12);
    assert_eq!(station.open(95), [12; 255]);
}

/// Shares one secret and hands out all opening messages.
fn shared_secret(rng: &mut Rng) -> (Station, u32, Vec<Message>) {
    let mut station = station(rng);
    let secret = rng.element();
    let shared = SharedRow::random(rng, station.shape);
    station.share(7, &shared, secret);
    let messages = station.messages(7);
    (station, secret, messages)
}

#[test]
fn t_posts_get_9_and_any_t_plus_1_the_number() {
    for seed in 100..200 {
        let mut rng = Rng::new(seed);
        let (station, secret, messages) = shared_secret(&mut rng);
        let own = rng.below(station.n());
        let mut others = messages.clone();
        others.remove(own);
        for (count, expected) in [(station.t() - 1, (9, 0)), (station.t(), (0, secret))] {
            let mut heard = only_some(&mut rng, &others, count);
            heard.insert(own, None);
            let record = record(station.shape, &heard);
            let outcome = Call::Open { row: 7, record }.perform(&REFERENCE, &station.posts[own]);
            assert_eq!((outcome.refusal, outcome.value), expected, "seed {seed}");
        }
    }
}

#[test]
fn forged_polynomials_are_rejected() {
    for seed in 200..300 {
        let mut rng = Rng::new(seed);
        let (station, secret, mut messages) = shared_secret(&mut rng);
        let liars = station.n() - station.t() - 1;
        let own = rng.below(station.n());
        let others: Vec<usize> = (0..station.n()).filter(|&post| post != own).collect();
        for (index, &liar) in others.iter().enumerate() {
            if index < liars {
                messages[liar] = Some(rng.elements(station.shape.coefficients()));
            }
        }
        let open = |messages: &[Message]| {
            let call = Call::Open { row: 7, record: record(station.shape, messages) };
            let outcome = call.perform(&REFERENCE, &station.posts[own]);
            (outcome.refusal, outcome.value)
        };
        assert_eq!(open(&messages), (0, secret), "seed {seed}");
        if liars < others.len() {
            messages[others[liars]] = Some(rng.elements(station.shape.coefficients()));
            assert_eq!(open(&messages), (9, 0), "seed {seed}");
        }
    }
}

/// A forged polynomial passes at the points where it meets the true one, and only there.
#[test]
fn a_forged_polynomial_passes_only_where_it_meets_the_true_one() {
    let mut rng = Rng::new(1);
    let shared = SharedRow::random(&mut rng, Shape::checked(2, 1, 1).unwrap());
    for point in 1..60 {
        let mut station = Station::new(2, 1, &[point, 1]);
        station.share(0, &shared, 5);
        // Differs from the true one by 3(z − 17).
        let mut forged = shared.v[1].clone();
        forged[0] = (Field::from(forged[0]) - 51.into()).value();
        forged[1] = (Field::from(forged[1]) + 3.into()).value();
        let record = record(station.shape, &[None, Some(forged)]);
        let outcome = Call::Open { row: 0, record }.perform(&REFERENCE, &station.posts[0]);
        assert_eq!(outcome.refusal, if point == 17 { 0 } else { 9 });
    }
}

#[test]
fn the_factory_gives_what_the_polynomials_say() {
    for seed in 300..360 {
        let mut rng = Rng::new(seed);
        let shape = street_shape(&mut rng);
        let (n, t, k) = (shape.posts(), shape.threshold(), shape.points());
        let points = check_points(&mut rng, shape);
        let triple = SharedRow::random_triple(&mut rng, shape);
        let mut out = vec![0; 3 * shape.row_packs()];
        let draw = SharedRow::triple_draw(&triple);
        assert_eq!(REFERENCE.factory_triple(n, t, k, &points, &draw, &mut out), 0);
        assert_eq!(out, triple.each_ref().map(|row| row.packs(&points)).concat());
        let mut out = vec![0; shape.row_packs()];
        assert_eq!(REFERENCE.factory_row(n, t, k, &points, &triple[0].draw(), &mut out), 0);
        assert_eq!(out, triple[0].packs(&points));
    }
}

#[test]
fn lines_read_back_what_was_written() {
    for seed in 400..700 {
        let mut rng = Rng::new(seed);
        let shape = shape(&mut rng);
        let (n, t, k, half) =
            (shape.posts(), shape.threshold(), shape.points(), shape.coefficients());
        let (row, first, post) = (rng.below(96), rng.below(94), rng.between(1, n));
        let numbers = rng.elements(shape.masks());
        let mut part = [0; 11_207];
        let mut assert_read_back = |write: &dyn Fn(&mut [u8]) -> Written,
                                    letter,
                                    row,
                                    post,
                                    count: usize| {
            let written = write(&mut part);
            assert_eq!(written.refusal, 0);
            let mut out = vec![1; shape.masks()];
            let read = REFERENCE.read(n, t, k, &part[..written.length], &mut out);
            assert_eq!((read.refusal, read.letter, read.row, read.post), (0, letter, row, post));
            assert_eq!(out[..count], numbers[..count]);
            assert!(out[count..].iter().all(|&number| number == 0));
        };
        let deal = |out: &mut [u8]| REFERENCE.write_deal(n, t, row, numbers[0], out);
        let opening =
            |out: &mut [u8]| REFERENCE.write_opening(n, t, k, row, post, &numbers[..half], out);
        let masks = |out: &mut [u8]| REFERENCE.write_masks(n, t, k, first, post, &numbers, out);
        assert_read_back(&deal, b'D', row, 0, 1);
        assert_read_back(&opening, b'O', row, post, half);
        assert_read_back(&masks, b'M', first, post, 2 * half);
    }
}
