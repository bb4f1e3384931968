//! Pack files: what they say, what the street program makes of them, and the programs in C around them. `GANTSOROL_STREET`
//! names the street program.

mod common;

use std::ffi::OsStr;
use std::fs;
use std::path::{Path, PathBuf};
use std::process::Command;

use common::programs::{compiled, printed, repository, C};
use common::street_program;
use gantsorol::{draw_place, pack_file_len, row_len, MODULUS, ROWS};

/// Numbers that look random, from a seed.
struct Numbers(u64);

impl Numbers {
    fn below(&mut self, bound: u32) -> u32 {
        self.0 =
            self.0.wrapping_mul(6_364_136_223_846_793_005).wrapping_add(1_442_695_040_888_963_407);
        ((self.0 >> 33) % u64::from(bound)) as u32
    }
}

struct Station {
    n: usize,
    t: usize,
    points: usize,
    check_points: Vec<u32>,
    kinds: [u8; ROWS],
    draws: Vec<u32>,
}

/// A station of n posts with so many check points each; of its rows about a third are raw, and some begin a triple.
fn station(n: usize, points: usize) -> Station {
    let mut numbers = Numbers(n as u64 + 1);
    let t = 1 + numbers.below(n as u32 - 1) as usize;
    let check_points = (0..points * n).map(|_| 1 + numbers.below(MODULUS - 1)).collect();
    let mut kinds = [0; ROWS];
    let mut row = 0;
    while row < ROWS {
        let kind = numbers.below(6);
        if kind == 3 && row + 3 <= ROWS {
            kinds[row] = 3;
            row += 2;
        } else if kind < 2 {
            kinds[row] = 1;
        }
        row += 1;
    }
    let all = draw_place(n, t, points, &kinds, ROWS);
    let draws = (0..all).map(|_| numbers.below(MODULUS)).collect();
    Station { n, t, points, check_points, kinds, draws }
}

impl Station {
    fn file(&self, post: usize) -> Vec<u8> {
        let mut out = vec![0; pack_file_len(self.n, self.t, self.points, ROWS, 0)];
        let written = gantsorol::write_pack(
            self.n,
            self.t,
            post,
            self.points,
            &self.check_points,
            &self.kinds,
            &self.draws,
            &mut out,
        );
        out.truncate(written.accepted().expect("the station is right"));
        out
    }

    /// Each row's kind, and all posts' packs of it, from the factory's calls.
    fn packs(&self) -> Vec<(usize, u8, Vec<u32>)> {
        let (n, t, points) = (self.n, self.t, self.points);
        let mut packs = Vec::new();
        for (row, &kind) in self.kinds.iter().enumerate() {
            let rows = usize::from(kind) * n;
            let mut out = vec![0; rows * row_len(n, t, points)];
            if kind == 0 {
                continue;
            }
            let place = |row| draw_place(n, t, points, &self.kinds, row);
            let draw = &self.draws[place(row)..place(row + 1)];
            let make = if kind == 1 { gantsorol::factory_row } else { gantsorol::factory_triple };
            make(n, t, points, &self.check_points, draw, &mut out).expect("the draw is right");
            packs.push((row, kind, out));
        }
        packs
    }

    /// A post's part of packs, or its three parts one after the other.
    fn part(&self, packs: &[u32], post: usize) -> Vec<u32> {
        let row = row_len(self.n, self.t, self.points);
        let all = self.n * row;
        packs.chunks(all).flat_map(|rows| rows[(post - 1) * row..post * row].to_vec()).collect()
    }
}

fn line(letter: char, numbers: impl IntoIterator<Item = u32>) -> String {
    let fields: String = numbers.into_iter().map(|number| format!(",{number}")).collect();
    format!("{letter}{fields}\n")
}

/// The start line, an `S` with one check point or a `W` with two, then each post's own part of the factory's packs, by rising row, at
/// every n of the street program and above.
fn check_files(points: usize, letter: char) {
    for n in (2..=32).chain([33, 100, gantsorol::MAX_POSTS]) {
        let station = station(n, points);
        let packs = station.packs();
        for post in [1, n / 2 + 1, n] {
            let own = &station.check_points[(post - 1) * points..post * points];
            let head = [n as u32, station.t as u32, post as u32];
            let mut text = line(letter, head.into_iter().chain(own.iter().copied()));
            for (row, kind, packs) in &packs {
                let letter = if *kind == 1 { 'R' } else { 'T' };
                text += &line(letter, [*row as u32].into_iter().chain(station.part(packs, post)));
            }
            assert_eq!(
                String::from_utf8(station.file(post)).expect("text"),
                text,
                "n = {n}, post {post}"
            );
        }
    }
}

#[test]
fn a_file_is_a_posts_parts_by_rising_row() {
    check_files(1, 'S');
}

#[test]
fn with_two_check_points_it_starts_with_both() {
    check_files(2, 'W');
}

/// A file with two check points a post, reckoned by hand: f = 7 + 4z, v1 = 1 + 2z + z², v2 = 3 + z + 2z², v3 = 5 + 6z + 3z².
#[test]
fn a_file_in_figures() {
    let mut kinds = [0; ROWS];
    kinds[95] = 1;
    let draw = [7, 4, 1, 2, 1, 3, 1, 2, 5, 6, 3];
    let mut out = [0; 99];
    let written = gantsorol::write_pack(3, 1, 2, 2, &[2, 4, 3, 5, 5, 7], &kinds, &draw, &mut out);
    let length = written.accepted().expect("it fits");
    let file = b"W,3,1,2,3,5\nR,95,3,1,2,16,36,24,58,50,110,12,18,24\n";
    assert_eq!(out[..length], *file);
    assert!(out[length..].iter().all(|&byte| byte == 0));
}

/// Kinds out of place, unknown or inside a triple, a number of p, and a list one byte too short: the refusal, and nothing written.
#[test]
fn a_refused_file_leaves_the_list() {
    let right = station(3, 1);
    let length = right.file(1).len();
    let refused = |kinds: &[(usize, u8)], number: u32, room: usize| {
        let mut set = [0; ROWS];
        kinds.iter().for_each(|&(row, kind)| set[row] = kind);
        let draws = vec![number; draw_place(3, right.t, 1, &set, ROWS)];
        let mut out = vec![7; room];
        let written =
            gantsorol::write_pack(3, right.t, 1, 1, &right.check_points, &set, &draws, &mut out);
        assert!(out.iter().all(|&byte| byte == 7) && written.len == 0);
        written.refusal
    };
    assert_eq!(refused(&[(94, 3)], 0, 9_999), 6);
    assert_eq!(refused(&[(0, 3), (2, 1), (94, 3)], 0, 9_999), 6);
    assert_eq!(refused(&[(0, 3), (1, 2)], 0, 9_999), 7);
    assert_eq!(refused(&[(0, 3), (2, 3)], 0, 9_999), 7);
    assert_eq!(refused(&[(0, 2)], 0, 9_999), 8);
    assert_eq!(refused(&[(0, 1)], MODULUS, 9_999), 8);
    assert_eq!(refused(&[(0, 1)], 0, 20), 12);

    let mut short = vec![7; length - 1];
    let (kinds, draws) = (&right.kinds, &right.draws);
    let written =
        gantsorol::write_pack(3, right.t, 1, 1, &right.check_points, kinds, draws, &mut short);
    assert_eq!((written.refusal, written.len), (12, 0));
    assert!(short.iter().all(|&byte| byte == 7));
    let refusal =
        gantsorol::write_pack(3, right.t, 4, 1, &right.check_points, kinds, draws, &mut short)
            .refusal;
    assert_eq!(refusal, 3);
    let refusal = gantsorol::write_pack(
        3,
        right.t,
        1,
        1,
        &right.check_points,
        kinds,
        &draws[1..],
        &mut short,
    )
    .refusal;
    assert_eq!(refusal, 5);
    for points in [0, 3, 255, usize::MAX] {
        let own = &right.check_points;
        let refused = |post: usize, out: &mut [u8]| {
            gantsorol::write_pack(3, right.t, post, points, own, kinds, &draws[1..], out).refusal
        };
        assert_eq!([refused(4, &mut short), refused(1, &mut short)], [3, 4], "{points}");
    }
    // A check point of another post, its second, and one behind the last.
    for (place, len) in [(0, 6), (5, 6), (6, 7)] {
        for bad in [0, MODULUS, u32::MAX] {
            let mut own = vec![9; len];
            own[place] = bad;
            let written = gantsorol::write_pack(3, 1, 1, 2, &own, &[0; ROWS], &[], &mut short);
            assert_eq!((written.refusal, written.len), (4, 0), "{own:?}");
        }
    }
}

fn fed(program: impl AsRef<OsStr>, arguments: &[&str], input: &[u8]) -> String {
    let printed = printed(Command::new(program).args(arguments), input);
    String::from_utf8(printed).expect("the program prints text")
}

/// The street program takes every line of a file, of raw rows and triples, and opens what is dealt to its last raw row, at every n
/// to 32.
#[test]
fn the_program_takes_the_files_and_opens() {
    let program = street_program();
    for n in 2..=32 {
        let station = station(n, 1);
        let raw = |(_, kind, _): &(usize, u8, Vec<u32>)| *kind == 1;
        let (row, _, packs) = station.packs().into_iter().rfind(raw).expect("a row is raw");
        let before = draw_place(n, station.t, 1, &station.kinds, row);
        let word = 1_000_000 + n as u32;
        let c = gantsorol::dealer_number(word, station.draws[before]);
        let c = c.accepted().expect("both are elements");
        let mut lines = line('D', [row as u32, c]);
        for post in 1..=station.t + 1 {
            let own = station.part(&packs, post);
            let head = [row as u32, post as u32];
            lines += &line('O', head.into_iter().chain(own[..station.t + 1].iter().copied()));
        }
        lines += &format!("G,{row}\n");
        for post in [1, n] {
            let mut input = station.file(post);
            input.extend_from_slice(lines.as_bytes());
            let printed = fed(&program, &[], &input);
            let mut answers: Vec<_> = printed.lines().skip(1).collect();
            let opened = answers.pop().expect("an answer");
            assert!(opened.ends_with(&format!(",0,{word}")), "n = {n}, post {post}: {opened}");
            assert!(answers.iter().all(|answer| answer.ends_with(",0,0")), "n = {n}, post {post}");
        }
    }
}

/// An example, compiled.
fn example(name: &str) -> PathBuf {
    compiled(name, &repository().join(format!("examples/{name}.c")), &C)
}

#[test]
fn the_works_program_writes_a_file() {
    let program = example("works");
    let read = |path: &str| fs::read(repository().join(path)).expect("an example");
    let printed = fed(program, &["1"], &read("examples/works.txt"));
    assert_eq!(printed.as_bytes(), read("examples/works.out"));
}

/// Random numbers of the operating system, three files, and the word at each post.
#[test]
fn three_posts_open_the_word() {
    let directory = Path::new(env!("CARGO_TARGET_TMPDIR")).join("word_files");
    fs::create_dir_all(&directory).expect("a directory");
    let status =
        Command::new(example("word")).arg(&directory).arg("20261116").status().expect("it runs");
    assert!(status.success());
    let read = |name: &str| fs::read(directory.join(name)).expect("it was written");
    for post in 1..=3 {
        let input = [read(&format!("post-{post}.txt")), read("lines.txt")].concat();
        let printed = fed(street_program(), &[], &input);
        assert_eq!(printed.lines().last(), Some("7,0,20261116"));
    }
}
