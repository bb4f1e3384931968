//! Times of calls, taken in rounds, and what they come to.

use std::hint::black_box;
use std::time::{Duration, Instant};

use reference::random::Rng;

use crate::contests::{Contest, Run};

/// A measurement starts below fewer frames than these, which fill a page: 128 bytes each.
const FRAMES: usize = 32;

/// So long is one measurement, about.
const PART: Duration = Duration::from_millis(1);

/// The numbers below `count` in random order.
pub fn shuffled(rng: &mut Rng, count: usize) -> Vec<usize> {
    let mut order: Vec<usize> = (0..count).collect();
    for end in (1..count).rev() {
        order.swap(end, rng.below(end + 1));
    }
    order
}

fn time(run: &mut Run, times: u32) -> f64 {
    let start = Instant::now();
    run(times);
    start.elapsed().as_secs_f64() / f64::from(times)
}

/// The time, so many frames further down the stack: where the stack stands to the lists makes a
/// short call up to half as slow again, and without this a run would measure its own luck.
#[inline(never)]
fn time_below(frames: usize, run: &mut Run, times: u32) -> f64 {
    let room = black_box([0_u8; 48]);
    let taken = if frames == 0 { time(run, times) } else { time_below(frames - 1, run, times) };
    black_box(room);
    taken
}

/// How many calls fill a part.
fn times(run: &mut Run) -> u32 {
    let mut times = 1;
    while time(run, times) * f64::from(times) < PART.as_secs_f64() {
        times *= 2;
    }
    times
}

/// The median and the quartiles.
fn spread(mut values: Vec<f64>) -> [f64; 3] {
    values.sort_by(f64::total_cmp);
    [2, 1, 3].map(|quarter| values[quarter * (values.len() - 1) / 4])
}

fn ratios(above: &[f64], below: &[f64]) -> String {
    let ratios = above.iter().zip(below).map(|(above, below)| above / below);
    let [median, lower, upper] = spread(ratios.collect());
    format!("{median:.2} ({lower:.2}-{upper:.2})")
}

/// A contest with how often each run makes its call in a part, and the times taken, round by round.
pub struct Held<'a> {
    contest: Contest<'a>,
    counts: Vec<u32>,
    taken: Vec<Vec<f64>>,
}

impl<'a> Held<'a> {
    pub fn new(mut contest: Contest<'a>) -> Self {
        let counts: Vec<u32> = contest.runs.iter_mut().map(times).collect();
        let taken = vec![vec![]; counts.len() + 1];
        Self { contest, counts, taken }
    }

    /// The library, the others, and the library once more, in random order.
    pub fn round(&mut self, rng: &mut Rng) {
        for part in shuffled(rng, self.taken.len()) {
            let run = part % self.counts.len();
            let (frames, times) = (rng.below(FRAMES), self.counts[run]);
            self.taken[part].push(time_below(frames, &mut self.contest.runs[run], times));
        }
    }

    pub fn print(&self) {
        let [ours, second] = [0, 1].map(|run| 1e9 * spread(self.taken[run].clone())[0]);
        let against = |other: usize| ratios(&self.taken[0], &self.taken[other]);
        let fastest = if self.counts.len() == 3 { against(2) } else { String::new() };
        println!(
            "{:<18} {ours:>10.0} {second:>10.0}   {:<18} {:<18} {fastest}",
            self.contest.name,
            against(1),
            against(self.counts.len())
        );
    }
}
