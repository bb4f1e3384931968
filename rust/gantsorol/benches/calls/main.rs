//! Times each call of the library, of the second implementation and, for the openings, the factory's row and
//! lines, of the fastest plain Rust, in another order in every round: what else the machine does at regular times
//! then meets them all alike.
//!
//! A ratio is of times taken in the same round: the median of all rounds, and the quartiles, since
//! the extremes are the machine's. The library's own time is taken twice in a round; how far that
//! ratio spreads around 1 is the noise. Beside a turn stands, as the fastest, reading and dealing the
//! line by two calls of the library.
//!
//!     cargo bench --manifest-path rust/Cargo.toml --bench calls
//!     cargo bench --manifest-path rust/Cargo.toml --bench calls -- count    # instructions, by valgrind

mod checks;
mod contests;
mod counting;
mod fastest;
mod inputs;
mod timing;

use inputs::Inputs;
use reference::random::Rng;
use timing::{shuffled, Held};

/// Rounds for a station of n posts: the second implementation takes long for large ones.
fn rounds(n: usize) -> usize {
    if n <= 32 {
        101
    } else {
        21
    }
}

/// n, t and the number of check points a post.
const SIZES: [(usize, usize, usize); 9] = [
    (3, 1, 1),
    (3, 1, 2),
    (32, 15, 1),
    (32, 15, 2),
    (32, 31, 1),
    (255, 127, 1),
    (255, 127, 2),
    (255, 254, 1),
    (255, 254, 2),
];

fn main() {
    let asked = |word: &str| std::env::args().any(|argument| argument == word);
    if asked(counting::ONCE) {
        return counting::once();
    }
    checks::all();
    if asked("count") {
        return counting::print();
    }
    let mut rng = Rng::new(0);
    for (n, t, points) in SIZES {
        let inputs = Inputs::new(n, t, points);
        println!("n = {n}, t = {t}, points = {points}: {} rounds", rounds(n));
        println!(
            "{:<18} {:>10} {:>10}   {:<18} {:<18} ours/fastest",
            "call", "ours, ns", "second, ns", "ours/second", "ours/ours again"
        );
        let mut held: Vec<Held> = contests::all(&inputs).into_iter().map(Held::new).collect();
        for _ in 0..rounds(n) {
            for contest in shuffled(&mut rng, held.len()) {
                held[contest].round(&mut rng);
            }
        }
        held.iter().for_each(Held::print);
        println!();
    }
}
