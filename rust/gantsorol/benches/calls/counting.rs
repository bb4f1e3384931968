//! The instructions of each call, counted by valgrind's callgrind, which other work on the machine does not touch.

use std::fs;
use std::path::Path;
use std::process::Command;

use crate::contests::{self, Run};
use crate::inputs::Inputs;
use crate::SIZES;

/// The argument by which the benchmark, run by valgrind, makes each call once.
pub const ONCE: &str = "once";

/// One call: valgrind counts what happens in here.
#[no_mangle]
#[inline(never)]
pub fn counted_once(run: &mut Run) {
    run(1);
}

/// Makes each call once.
pub fn once() {
    for (n, t, points) in SIZES {
        let inputs = Inputs::new(n, t, points);
        for mut contest in contests::all(&inputs) {
            contest.runs.iter_mut().for_each(counted_once);
        }
    }
}

/// What valgrind counts, call by call.
fn counts() -> Vec<u64> {
    let file = Path::new(env!("CARGO_TARGET_TMPDIR")).join("calls.callgrind");
    let mut valgrind = Command::new("valgrind");
    valgrind.args(["--quiet", "--tool=callgrind", "--combine-dumps=yes"]);
    valgrind.args(["--toggle-collect=counted_once", "--dump-after=counted_once"]);
    valgrind.arg(format!("--callgrind-out-file={}", file.display()));
    let benchmark = std::env::current_exe().expect("the benchmark has a path");
    let status = valgrind.arg(benchmark).arg(ONCE).status().expect("valgrind runs");
    assert!(status.success(), "valgrind ends with {status}");
    let text = fs::read_to_string(file).expect("callgrind has written");
    let totals = text.lines().filter_map(|line| line.strip_prefix("totals: "));
    totals.map(|total| total.trim().parse().expect("a count is a number")).collect()
}

/// Prints the instructions of each call, and ratios.
pub fn print() {
    let mut counts = counts().into_iter();
    for (n, t, points) in SIZES {
        println!("n = {n}, t = {t}, points = {points}: instructions\n{:<18} {:>10} {:>10} {:>10}   ours/second ours/fastest", "call", "ours", "second", "fastest");
        let inputs = Inputs::new(n, t, points);
        for contest in contests::all(&inputs) {
            let of: Vec<u64> = counts.by_ref().take(contest.runs.len()).collect();
            let ratio = |other: u64| of[0] as f64 / other as f64;
            print!("{:<18} {:>10} {:>10}", contest.name, of[0], of[1]);
            match of.get(2) {
                Some(&fastest) => {
                    println!(" {fastest:>10}   {:<11.2} {:.2}", ratio(of[1]), ratio(fastest))
                }
                None => println!(" {:>10}   {:.2}", "", ratio(of[1])),
            }
        }
        println!();
    }
}
