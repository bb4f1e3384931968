//! Two libraries side by side, and the shortest case that sets them apart.

use std::fmt;

use super::{Outcome, Paperwork, Script};
use crate::Library;

/// Where two libraries part, as a reproduction that can be read.
#[derive(Clone, Debug)]
pub struct Difference {
    /// The calls or lines that lead there, the last of which is answered differently.
    pub case: Vec<String>,
    /// What differs, the left library's first.
    pub parting: Vec<String>,
}

impl fmt::Display for Difference {
    fn fmt(&self, f: &mut fmt::Formatter) -> fmt::Result {
        for line in &self.case {
            writeln!(f, "  {line}")?;
        }
        for line in &self.parting {
            writeln!(f, "differs: {line}")?;
        }
        Ok(())
    }
}

/// Replays a script on both libraries: refusal, value, session, every number of every list.
pub fn compare_script(
    script: &Script,
    left: &impl Library,
    right: &impl Library,
) -> Option<Difference> {
    parting_step(script, left, right)?;
    let parts = |script: &Script| parting_step(script, left, right).is_some();
    let steps = shortest(script.steps.clone(), |steps| parts(&with_steps(script, steps)))?;
    let short = with_steps(script, &steps);
    let (_, a, b) = parting_step(&short, left, right)?;
    let case = steps.iter().map(|step| format!("{step:?}")).collect();
    Some(Difference { case, parting: partings(&a, &b) })
}

fn with_steps(script: &Script, steps: &[super::Step]) -> Script {
    Script { steps: steps.to_vec(), ..script.clone() }
}

/// The first step that is answered differently.
fn parting_step(
    script: &Script,
    left: &impl Library,
    right: &impl Library,
) -> Option<(usize, Outcome, Outcome)> {
    let pairs = script.replay(left).zip(script.replay(right)).enumerate();
    pairs.map(|(step, (a, b))| (step, a, b)).find(|(_, a, b)| a != b)
}

/// What two outcomes don't share.
fn partings(a: &Outcome, b: &Outcome) -> Vec<String> {
    let mut partings = vec![];
    let mut note = |what: &str, a: String, b: String| {
        if a != b {
            partings.push(format!("{what}: {a} and {b}"));
        }
    };
    note("refusal", a.refusal.to_string(), b.refusal.to_string());
    note("value", a.value.to_string(), b.value.to_string());
    note("out", format!("{:?}", a.out), format!("{:?}", b.out));
    note("session", format!("{:?}", a.state.session), format!("{:?}", b.state.session));
    note("dealers", format!("{:?}", a.state.dealers), format!("{:?}", b.state.dealers));
    let rows = a.state.rows.iter().zip(&b.state.rows).enumerate();
    if let Some((place, (a, b))) = rows.clone().find(|(_, (a, b))| a != b) {
        note(&format!("rows at {place}"), a.to_string(), b.to_string());
    }
    partings
}

/// Makes a call without a session on both libraries.
pub fn compare_paperwork(
    work: &Paperwork,
    left: &impl Library,
    right: &impl Library,
) -> Option<Difference> {
    let (a, b) = (work.perform(left), work.perform(right));
    (a != b).then(|| Difference {
        case: vec![format!("{work:?}")],
        parting: vec![format!("{a:?} and {b:?}")],
    })
}

/// Runs both street programs on one input.
pub fn compare_street(
    input: &[u8],
    left: impl Fn(&[u8]) -> Vec<u8>,
    right: impl Fn(&[u8]) -> Vec<u8>,
) -> Option<Difference> {
    let lines: Vec<&[u8]> = input.split_inclusive(|&byte| byte == b'\n').collect();
    let shortest = shortest(lines, |lines| left(&lines.concat()) != right(&lines.concat()))?;
    let input = shortest.concat();
    let shown = |output: Vec<u8>| String::from_utf8_lossy(&output).into_owned();
    Some(Difference {
        case: shortest.iter().map(|line| format!("{:?}", String::from_utf8_lossy(line))).collect(),
        parting: vec![format!("{:?} and {:?}", shown(left(&input)), shown(right(&input)))],
    })
}

/// The list cut down as long as `differs` holds of it; `None` when it doesn't to begin with.
fn shortest<T: Clone>(mut list: Vec<T>, differs: impl Fn(&[T]) -> bool) -> Option<Vec<T>> {
    if !differs(&list) {
        return None;
    }
    let mut length = list.len();
    while length > 0 {
        for start in (0..list.len()).step_by(length).rev() {
            let end = (start + length).min(list.len());
            let shorter = [&list[..start], &list[end..]].concat();
            if differs(&shorter) {
                list = shorter;
            }
        }
        length /= 2;
    }
    Some(list)
}
