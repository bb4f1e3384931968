//! Refusals of the factory, the dealer's number and the lines.

mod common;

use common::{HAND_DRAW, HAND_POINTS};
use reference::{Library, Reference, MODULUS, REFERENCE};

const UNTOUCHED: u32 = 0xDEAD_BEEF;

#[track_caller]
fn assert_factory(n: usize, t: usize, points: &[u32], draw: &[u32], out: usize, number: u8) {
    let mut list = vec![UNTOUCHED; out];
    assert_eq!(REFERENCE.factory_row(n, t, 1, points, draw, &mut list), number);
    assert_eq!(list.iter().all(|&x| x == UNTOUCHED), number != 0);
}

#[track_caller]
fn assert_triple(n: usize, t: usize, points: &[u32], draw: &[u32], out: usize, number: u8) {
    let mut list = vec![UNTOUCHED; out];
    assert_eq!(REFERENCE.factory_triple(n, t, 1, points, draw, &mut list), number);
    assert_eq!(list.iter().all(|&x| x == UNTOUCHED), number != 0);
}

#[test]
fn the_factory_checks_1_2_4_5_8_in_this_order() {
    let (points, draw) = (HAND_POINTS.as_slice(), HAND_DRAW.as_slice());
    assert_factory(3, 1, points, draw, 24, 0);
    assert_factory(1, 0, &[0], &[MODULUS], 0, 1);
    assert_factory(256, 1, &[0], &[MODULUS], 0, 1);
    assert_factory(3, 3, &[0], &[MODULUS], 0, 2);
    assert_factory(3, 0, &[0], &[MODULUS], 0, 2);
    assert_factory(3, 1, &[2, 3, 0], &[MODULUS], 0, 4);
    assert_factory(3, 1, &[MODULUS, 3, 5], &[MODULUS], 0, 4);
    assert_factory(3, 1, &[2, 3, 5, 0], draw, 24, 4);
    assert_factory(3, 1, &[0], draw, 24, 4);
    assert_factory(3, 1, &[], draw, 24, 5);
    assert_factory(3, 1, &[2, 3], draw, 24, 5);
    assert_factory(3, 1, &[2, 3, 5, 7], draw, 24, 5);
    for out in [0, 23, 25] {
        assert_factory(3, 1, points, draw, out, 5);
    }
    assert_factory(3, 1, points, &draw[..7], 24, 5);
    assert_factory(3, 1, points, &[draw, &[1]].concat(), 24, 5);
    for place in 0..8 {
        let mut bad = draw.to_vec();
        bad[place] = MODULUS;
        assert_factory(3, 1, points, &bad, 24, 8);
    }
}

#[test]
fn the_triple_too() {
    let points = HAND_POINTS.as_slice();
    let draw = vec![1; 23];
    assert_triple(3, 1, points, &draw, 72, 0);
    assert_triple(256, 40, &[0], &draw, 72, 1);
    assert_triple(3, 4, &[0], &draw, 72, 2);
    assert_triple(3, 1, &[2, 3, 5, MODULUS], &draw, 71, 4);
    assert_triple(3, 1, &[2, 3], &draw, 72, 5);
    assert_triple(3, 1, points, &draw[..22], 72, 5);
    assert_triple(3, 1, points, &[1; 24], 72, 5);
    assert_triple(3, 1, points, &draw, 71, 5);
    assert_triple(3, 1, points, &draw, 73, 5);
    for place in 0..23 {
        let mut bad = draw.clone();
        bad[place] = MODULUS;
        assert_triple(3, 1, points, &bad, 72, 8);
    }
}

#[test]
fn the_dealers_number_takes_elements_only() {
    assert_eq!(REFERENCE.dealer_number(MODULUS - 1, MODULUS - 1), (0, 0));
    assert_eq!(REFERENCE.dealer_number(0, MODULUS - 1), (0, 1));
    assert_eq!(REFERENCE.dealer_number(MODULUS, 0), (8, 0));
    assert_eq!(REFERENCE.dealer_number(0, MODULUS), (8, 0));
    assert_eq!(REFERENCE.dealer_number(u32::MAX, u32::MAX), (8, 0));
    assert_eq!(Reference::<5>.dealer_number(1, 4), (0, 2));
    assert_eq!(Reference::<5>.dealer_number(5, 4), (8, 0));
}

#[track_caller]
fn assert_unread(n: usize, t: usize, line: &[u8], out: usize, number: u8) {
    let mut list = vec![UNTOUCHED; out];
    let read = REFERENCE.read(n, t, 1, line, &mut list);
    let shown = String::from_utf8_lossy(line);
    assert_eq!(read.refusal, number, "{shown:?}");
    assert_eq!((read.letter, read.row, read.post), (0, 0, 0), "{shown:?}");
    assert!(list.iter().all(|&x| x == UNTOUCHED), "{shown:?}");
}

#[track_caller]
fn assert_read(line: &[u8], heading: (u8, usize, usize), numbers: [u32; 4]) {
    let mut list = [UNTOUCHED; 4];
    let read = REFERENCE.read(3, 1, 1, line, &mut list);
    assert_eq!(
        (read.refusal, read.letter, read.row, read.post),
        (0, heading.0, heading.1, heading.2)
    );
    assert_eq!(list, numbers);
}

#[test]
fn lines_are_read_and_the_places_behind_set_to_0() {
    assert_read(b"D,95,0\n", (b'D', 95, 0), [0, 0, 0, 0]);
    assert_read(b"O,95,3,0,2147483646\n", (b'O', 95, 3), [0, MODULUS - 1, 0, 0]);
    assert_read(b"M,93,1,4,3,2,1\n", (b'M', 93, 1), [4, 3, 2, 1]);
}

/// Lines of no right form.
const WRONG_FORM: &[&str] = &[
    "",
    "\n",
    "D",
    "D\n",
    "D,\n",
    "D,0\n",
    "D,0,\n",
    "D,0,1",
    "D,0,1,\n",
    "D,0,1,1\n",
    "d,0,1\n",
    "DD,0,1\n",
    ",D,0,1\n",
    " D,0,1\n",
    "D,0,01\n",
    "D,00,1\n",
    "D,0,+1\n",
    "D,0,-1\n",
    "D,0,1\r\n",
    "D,0,1\n\n",
    "D,0,1\nD,0,1\n",
    "D,0,1\n ",
    "D,0, 1\n",
    "D,0,\"1\"\n",
    "D,0,10000000000\n",
    "D,96,01\n",
    "O,0,1,1\n",
    "O,0,1,1,1,1\n",
    "O,0,1,1,,1\n",
    "M,0,1,1,1,1\n",
    "M,0,1,1,1,1,1,1\n",
    "R,0,1,2,5,5,17,12,18,24\n",
    "G,0\n",
    "S,3,1,1,2\n",
    "O,96,0,9999999999,x\n",
];

/// Lines of right form with a number out of range.
const OUT_OF_RANGE: &[&str] = &[
    "D,96,1\n",
    "D,0,2147483647\n",
    "D,0,4294967296\n",
    "D,0,9999999999\n",
    "D,4294967296,1\n",
    "D,4294967391,1\n",
    "O,96,1,1,1\n",
    "O,0,0,1,1\n",
    "O,0,4,1,1\n",
    "O,0,4294967297,1,1\n",
    "O,0,1,2147483647,1\n",
    "O,0,1,1,2147483647\n",
    "M,94,1,1,1,1,1\n",
    "M,0,0,1,1,1,1\n",
    "M,0,4,1,1,1,1\n",
    "M,0,1,1,1,1,2147483647\n",
    "M,4294967296,1,1,1,1,1\n",
];

#[test]
fn reading_checks_1_2_5_10_11_in_this_order() {
    assert_unread(1, 9, b"", 0, 1);
    assert_unread(256, 9, b"", 0, 1);
    assert_unread(3, 0, b"", 0, 2);
    assert_unread(3, 3, b"", 0, 2);
    for out in [0, 3, 5] {
        assert_unread(3, 1, b"", out, 5);
    }
    for line in WRONG_FORM {
        assert_unread(3, 1, line.as_bytes(), 4, 10);
    }
    for line in OUT_OF_RANGE {
        assert_unread(3, 1, line.as_bytes(), 4, 11);
    }
}

type Write<'a> = &'a dyn Fn(&mut [u8]) -> reference::Written;

#[track_caller]
fn assert_unwritten(write: Write, room: usize, number: u8) {
    let mut part = vec![b'#'; room];
    let written = write(&mut part);
    assert_eq!((written.refusal, written.length), (number, 0));
    assert!(part.iter().all(|&byte| byte == b'#'));
}

#[test]
fn writing_checks_1_2_3_5_6_8_12_in_this_order() {
    let bad = MODULUS;
    assert_unwritten(&|out| REFERENCE.write_deal(256, 0, 96, bad, out), 0, 1);
    assert_unwritten(&|out| REFERENCE.write_deal(255, 0, 96, bad, out), 0, 2);
    assert_unwritten(&|out| REFERENCE.write_deal(255, 1, 96, bad, out), 0, 6);
    assert_unwritten(&|out| REFERENCE.write_deal(255, 1, usize::MAX, bad, out), 0, 6);
    assert_unwritten(&|out| REFERENCE.write_deal(255, 1, 95, bad, out), 0, 8);
    assert_unwritten(&|out| REFERENCE.write_deal(255, 1, 95, bad - 1, out), 0, 12);
    assert_unwritten(&|out| REFERENCE.write_deal(255, 1, 95, bad - 1, out), 15, 12);

    let opening = |n, t, row, post, numbers: &'static [u32]| {
        move |out: &mut [u8]| REFERENCE.write_opening(n, t, 1, row, post, numbers, out)
    };
    assert_unwritten(&opening(1, 1, 96, 0, &[MODULUS]), 0, 1);
    assert_unwritten(&opening(3, 3, 96, 0, &[MODULUS]), 0, 2);
    assert_unwritten(&opening(3, 1, 96, 0, &[MODULUS]), 0, 3);
    assert_unwritten(&opening(3, 1, 96, 4, &[MODULUS]), 0, 3);
    assert_unwritten(&opening(3, 1, 96, 3, &[MODULUS]), 0, 5);
    assert_unwritten(&opening(3, 1, 96, 3, &[MODULUS; 3]), 0, 5);
    assert_unwritten(&opening(3, 1, 96, 3, &[MODULUS; 2]), 0, 6);
    assert_unwritten(&opening(3, 1, 95, 3, &[0, MODULUS]), 0, 8);
    assert_unwritten(&opening(3, 1, 95, 3, &[0, 0]), 10, 12);

    let masks = |n, t, first, post, numbers: &'static [u32]| {
        move |out: &mut [u8]| REFERENCE.write_masks(n, t, 1, first, post, numbers, out)
    };
    assert_unwritten(&masks(0, 1, 96, 0, &[MODULUS]), 0, 1);
    assert_unwritten(&masks(3, 9, 96, 0, &[MODULUS]), 0, 2);
    assert_unwritten(&masks(3, 1, 96, 0, &[MODULUS]), 0, 3);
    assert_unwritten(&masks(3, 1, 96, 4, &[MODULUS]), 0, 3);
    assert_unwritten(&masks(3, 1, 96, 1, &[MODULUS; 3]), 0, 5);
    assert_unwritten(&masks(3, 1, 96, 1, &[MODULUS; 5]), 0, 5);
    assert_unwritten(&masks(3, 1, 94, 1, &[MODULUS; 4]), 0, 6);
    assert_unwritten(&masks(3, 1, 93, 1, &[0, 0, 0, MODULUS]), 0, 8);
    assert_unwritten(&masks(3, 1, 93, 1, &[0; 4]), 14, 12);
}

#[test]
fn a_written_line_leaves_the_rest_of_its_part_untouched() {
    let mut part = *b"##################";
    let written = REFERENCE.write_deal(255, 1, 95, MODULUS - 1, &mut part[..16]);
    assert_eq!((written.refusal, written.length), (0, 16));
    assert_eq!(&part, b"D,95,2147483646\n##");
    let mut part = *b"####################";
    let written = REFERENCE.write_masks(3, 1, 1, 93, 3, &[0, 1, 2, 3], &mut part);
    assert_eq!((written.refusal, written.length), (0, 15));
    assert_eq!(&part, b"M,93,3,0,1,2,3\n#####");
    let mut exact = [0; 11];
    let written = REFERENCE.write_opening(3, 1, 1, 95, 3, &[0, 7], &mut exact);
    assert_eq!((written.refusal, written.length), (0, 11));
    assert_eq!(&exact, b"O,95,3,0,7\n");
}
