//! Lines, written and read.

use reference::{Library, REFERENCE};

use super::{contest, filling, Contest};
use crate::fastest;
use crate::inputs::Inputs;

/// A line of a letter with so many coefficients, written by the call.
fn line(write: impl FnOnce(&mut [u8]) -> gantsorol::Written) -> Vec<u8> {
    let mut line = vec![0; gantsorol::LONGEST_LINE];
    let written = write(&mut line);
    line.truncate(written.len);
    line
}

/// A line that is read.
fn reading<'a>(i: &Inputs, name: &'static str, line: Vec<u8>) -> Contest<'a> {
    let (n, t, points, list) = (i.n, i.t, i.points, gantsorol::line_list_len(i.t, i.points));
    let [ours, second, fastest] = [(); 3].map(|()| line.clone());
    let runs = vec![
        filling(list, move |out| gantsorol::read(n, t, points, &ours, out), |a| a.refusal),
        filling(list, move |out| REFERENCE.read(n, t, points, &second, out), |a| a.refusal),
        filling(list, move |out| fastest::read(n, t, points, &fastest, out), |a| a.refusal),
    ];
    Contest { name, runs }
}

pub fn all(i: &Inputs) -> Vec<Contest<'_>> {
    let (n, t, points, numbers) = (i.n, i.t, i.points, &i.numbers[..]);
    let half = &numbers[..gantsorol::message_len(t, points)];
    let room = gantsorol::LONGEST_LINE;
    let (ours, second) = (|a: &gantsorol::Written| a.refusal, |a: &reference::Written| a.refusal);
    vec![
        contest(
            "write D",
            filling(room, move |out| gantsorol::write_deal(n, t, 95, numbers[0], out), ours),
            filling(room, move |out| REFERENCE.write_deal(n, t, 95, numbers[0], out), second),
        ),
        Contest {
            name: "write O",
            runs: vec![
                filling(
                    room,
                    move |out| gantsorol::write_opening(n, t, points, 95, 1, half, out),
                    ours,
                ),
                filling(
                    room,
                    move |out| REFERENCE.write_opening(n, t, points, 95, 1, half, out),
                    second,
                ),
                filling(
                    room,
                    move |out| fastest::write_opening(n, t, points, 95, 1, half, out),
                    ours,
                ),
            ],
        },
        Contest {
            name: "write M",
            runs: vec![
                filling(
                    room,
                    move |out| gantsorol::write_masks(n, t, points, 93, 1, numbers, out),
                    ours,
                ),
                filling(
                    room,
                    move |out| REFERENCE.write_masks(n, t, points, 93, 1, numbers, out),
                    second,
                ),
                filling(
                    room,
                    move |out| fastest::write_masks(n, t, points, 93, 1, numbers, out),
                    ours,
                ),
            ],
        },
        reading(i, "read O", line(|out| gantsorol::write_opening(n, t, points, 95, 1, half, out))),
        reading(i, "read M", line(|out| gantsorol::write_masks(n, t, points, 93, 1, numbers, out))),
    ]
}
