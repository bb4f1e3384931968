//! The calls that are timed: the library's, the second implementation's and the fastest plain Rust's.

mod lines;
mod sessions;
mod works;

use std::hint::black_box;

use reference::Session;

use crate::inputs::Inputs;

/// Makes a call so many times.
pub type Run<'a> = Box<dyn FnMut(u32) + 'a>;

/// One call: the library's runs, the second implementation's and, if there is one, the fastest's.
pub struct Contest<'a> {
    pub name: &'static str,
    pub runs: Vec<Run<'a>>,
}

/// A call that is never refused, made over and over.
fn repeated<'a, R>(mut call: impl FnMut() -> R + 'a, refusal: impl Fn(&R) -> u8) -> Run<'a> {
    assert_eq!(refusal(&call()), 0, "what is timed is no refusal");
    Box::new(move |times| {
        for _ in 0..times {
            black_box(call());
        }
    })
}

/// A call of the binding's form on the session and on a copy of the rows. What it writes is what
/// it would take again.
fn on_ours<'a>(
    inputs: &'a Inputs,
    mut call: impl FnMut(gantsorol::Session, &mut [u32]) -> gantsorol::Answer + 'a,
) -> Run<'a> {
    let mut rows = inputs.rows.clone();
    repeated(move || call(black_box(&inputs.ours).clone(), black_box(&mut rows)), |a| a.refusal)
}

/// The like of the second implementation.
fn on_second<'a>(
    inputs: &'a Inputs,
    mut call: impl FnMut(Session, &mut [u32]) -> reference::Answer + 'a,
) -> Run<'a> {
    let mut rows = inputs.rows.clone();
    repeated(move || call(*black_box(&inputs.second), black_box(&mut rows)), |a| a.refusal)
}

fn contest<'a>(name: &'static str, ours: Run<'a>, second: Run<'a>) -> Contest<'a> {
    Contest { name, runs: vec![ours, second] }
}

/// A call that fills a list of `length`.
fn filling<'a, T: Clone + Default + 'a, R>(
    length: usize,
    mut call: impl FnMut(&mut [T]) -> R + 'a,
    refusal: impl Fn(&R) -> u8,
) -> Run<'a> {
    let mut out = vec![T::default(); length];
    repeated(move || call(black_box(&mut out)), refusal)
}

/// Every call, in the order of the library's document.
pub fn all(i: &Inputs) -> Vec<Contest<'_>> {
    [sessions::all, works::all, lines::all].into_iter().flat_map(|calls| calls(i)).collect()
}
