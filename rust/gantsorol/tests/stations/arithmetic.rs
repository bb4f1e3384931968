//! Sums and products of a station against the plain ones.

use gantsorol::Term;
use reference::random::Rng;
use reference::MODULUS;

use crate::station::Station;
use crate::Field;

pub fn check_sums(rng: &mut Rng, mut station: Station, seed: u64) {
    let [a, b, scale, fee] = [(); 4].map(|()| Field::from(rng.element()));
    station.share(rng, 0, a.value());
    station.share(rng, 95, b.value());
    let minus_one = MODULUS - 1;
    for (_, post) in station.shuffled(rng) {
        post.call(|session, rows| session.linear(rows, 1, 0, 95, scale.value(), fee.value()));
        post.call(|session, rows| session.linear(rows, 2, 1, 1, scale.value(), 0));
        post.call(|session, rows| session.linear(rows, 3, 2, 2, minus_one, 0));
    }
    let sum = a + scale * b + fee;
    let rows = [(0, a), (95, b), (1, sum), (2, sum + scale * sum), (3, 0.into())];
    check_opened(rng, station, seed, &rows);
}

/// ab, ab + sa with a fee, its square, and the square times b, each a factor of the next.
pub fn check_products(rng: &mut Rng, mut station: Station, seed: u64) {
    let [a, b, scale, fee] = [(); 4].map(|()| Field::from(rng.element()));
    station.share(rng, 0, a.value());
    station.share(rng, 1, b.value());
    for first in [2, 93, 10] {
        station.load_triple(rng, first);
    }
    station.multiply(rng, 0, 1, 2);
    station.linear(rng, 5, (4, 0), (scale.value(), fee.value()));
    station.multiply(rng, 5, 5, 93);
    station.multiply(rng, 95, 1, 10);
    let sum = a * b + scale * a + fee;
    let square = sum * sum;
    let rows = [(4, a * b), (5, sum), (95, square), (12, square * b)];
    check_opened(rng, station, seed, &rows);
}

/// rides × rate − fee is 0. A sum of plain terms, a square and a product over the first relation's
/// product is the plain one, and so is a relation without a product.
pub fn check_relations(rng: &mut Rng, mut station: Station, seed: u64) {
    let [rides, rate, scale, other] = [(); 4].map(|()| Field::from(rng.element()));
    let fee = rides * rate;
    for (row, number) in [(0, rides), (1, rate), (2, fee)] {
        station.share(rng, row, number.value());
    }
    for first in [3, 93, 10] {
        station.load_triple(rng, first);
    }
    let (minus_one, scaled, others) = (MODULUS - 1, scale.value(), other.value());
    let terms = [Term::product(1, 0, 1, 3), Term::plain(minus_one, 2)];
    station.relate(rng, &terms, 20);
    let terms = [
        Term::plain(scaled, 1),
        Term::product(others, 5, 2, 93),
        Term::plain(minus_one, 0),
        Term::product(scaled, 0, 0, 10),
    ];
    station.relate(rng, &terms, 21);
    station.relate(rng, &[Term::plain(others, 21), Term::plain(1, 21)], 22);
    let square = rides * rides;
    let sum = scale * rate + other * (fee * fee) + Field::from(minus_one) * rides + scale * square;
    let rows = [(20, 0.into()), (5, fee), (95, fee * fee), (12, square), (21, sum)];
    let rows = [&rows[..], &[(22, other * sum + sum)]].concat();
    check_opened(rng, station, seed, &rows);
}

/// Every post opens each of these rows to the plain number.
fn check_opened(rng: &mut Rng, mut station: Station, seed: u64, rows: &[(usize, Field)]) {
    for &(row, plain) in rows {
        let opened = station.open(rng, row);
        assert_eq!(opened, vec![plain.value(); station.n], "seed {seed}, row {row}");
    }
}
