//! Request (iii): products over the street program.

mod common;

use common::program::{answers, refusals, replies};
use common::*;
use reference::random::{join, Call, SharedRow};
use reference::{Library, REFERENCE};

/// A post's lines for the hand-reckoned station: rows 0 and 1 hold 12 rides and a rate of 35, rows 2
/// to 4 and 10 to 12 are triples with l = 2 and l' = 5.
fn furnished_lines(post: usize) -> String {
    let point = HAND_POINTS[post - 1];
    let pack = |shared: &SharedRow| shared.row_of(post, &[point]);
    let line = |letter: &str, row: u64, numbers: Vec<u32>| {
        let numbers = numbers.into_iter().map(u64::from);
        String::from_utf8(join(letter, [row].into_iter().chain(numbers))).unwrap()
    };
    let triple = hand_triple().each_ref().map(pack).concat();
    [
        format!("S,3,1,{post},{point}\n"),
        line("R", 0, pack(&hand_row([7, 4]))),
        line("R", 1, pack(&hand_row([11, 3]))),
        line("T", 2, triple.clone()),
        line("T", 10, triple),
        "D,0,5\nD,1,24\n".to_string(),
    ]
    .concat()
}

fn hand_triple() -> [SharedRow; 3] {
    [hand_row([2, 9]), hand_row([5, 1]), hand_row([10, 8])]
}

/// How many lines [`furnished_lines`] has.
const FURNISHED: usize = 7;

/// What the lines get behind post `post`'s furnished ones, all of which are taken.
#[track_caller]
fn behind(post: usize, lines: &str) -> Vec<(u8, u32)> {
    let input = furnished_lines(post) + lines;
    let answers = answers(input.as_bytes());
    assert!(answers[..FURNISHED].iter().all(|&answer| answer == (0, 0)));
    answers[FURNISHED..].to_vec()
}

#[track_caller]
fn refused_behind(post: usize, lines: &str) -> Vec<u8> {
    behind(post, lines).into_iter().map(|(refusal, _)| refusal).collect()
}

/// The M line that a post prints for this X line behind its furnished ones.
fn printed(post: usize, x: &str) -> String {
    let replies = replies((furnished_lines(post) + x).as_bytes());
    assert_eq!(replies[FURNISHED].0, 0);
    assert!(replies[..FURNISHED].iter().all(|(_, _, line)| line.is_empty()));
    replies[FURNISHED].2.clone()
}

/// The same session by the calls, up to the charge in row 5.
fn charged() -> Station {
    let mut station = Station::hand();
    station.share(0, &hand_row([7, 4]), 12);
    station.share(1, &hand_row([11, 3]), 35);
    station.load_triple(2, &hand_triple());
    station.multiply(0, 1, 2);
    station.each(|_| Call::Linear { dest: 5, a: 4, b: 4, scale: 0, fee: 80 });
    station
}

/// Rides × rate + fee at three posts, each of which reads the M lines that the others print.
#[test]
fn a_charge_is_worked_out_at_the_station() {
    let masks = [1, 2, 3].map(|post| printed(post, "X,0,1,2\n")).concat();
    let mut station = charged();
    let mut openings = String::new();
    for (post, message) in (1..).zip(station.messages(5)) {
        let mut part = [0; 40];
        let written = REFERENCE.write_opening(3, 1, 1, 5, post, &message.unwrap(), &mut part);
        openings += std::str::from_utf8(&part[..written.length]).unwrap();
    }
    let lines = format!("X,0,1,2\n{masks}F,2\nL,5,4,4,0,80\n{openings}G,5\n");
    for post in [1, 2, 3] {
        let answers = behind(post, &lines);
        assert!(answers.iter().all(|&(refusal, _)| refusal == 0), "{answers:?}");
        assert_eq!(answers.last(), Some(&(0, 500)));
    }
}

/// "X, when not refused, also prints its M line, after its answer."
#[test]
fn x_prints_its_m_line() {
    // Rows and triples have the same v, so that every mask is 0: v1 − v1.
    assert_eq!(printed(1, "X,0,1,2\n"), "M,2,1,0,0,0,0\n");
    assert_eq!(printed(3, "X,1,1,10\n"), "M,10,3,0,0,0,0\n");
    let input = furnished_lines(1) + "X,0,1,2\nX,0,1,2\nX,0,1,10\n";
    let output = String::from_utf8(REFERENCE.street(input.as_bytes())).unwrap();
    assert!(output.ends_with("\n8,0,0\nM,2,1,0,0,0,0\n9,7,0\n10,0,0\nM,10,1,0,0,0,0\n"));
    let other = SharedRow { f: vec![1, 1], v: vec![vec![9, 9]; 3] };
    let row = other.row_of(1, &[2]).iter().map(|number| format!(",{number}")).collect::<String>();
    let line = format!("R,20{row}\nD,20,0\nX,20,0,2\n");
    let replies = replies((furnished_lines(1) + &line).as_bytes());
    assert_eq!(replies.last().unwrap().2, "M,2,1,8,7,0,0\n");
}

/// Lines of no right form.
const WRONG_FORM: &[&str] = &[
    "T\n",
    "T,20\n",
    "T,96,1\n",
    "X\n",
    "X,0,1\n",
    "X,0,1,2,3\n",
    "X,0,1,02\n",
    "X,96,96,\n",
    "x,0,1,2\n",
    "XX,0,1,2\n",
    "X,0,1,2",
    "M,2,1,0,0,0\n",
    "M,2,1,0,0,0,0,0\n",
    "M,94,1,0,0,0,00\n",
    "m,2,1,0,0,0,0\n",
    "F\n",
    "F,\n",
    "F,2,2\n",
    "F,02\n",
    "F,99,\n",
    "L,5,0,1,1\n",
    "L,5,0,1,1,0,0\n",
    "L,5,0,1,1,-1\n",
    "L,96,0,1,1,00\n",
    "L,5,0,1,1,10000000000\n",
];

/// Lines of right form with a number out of range.
const OUT_OF_RANGE: &[&str] = &[
    "X,96,1,2\n",
    "X,0,96,2\n",
    "X,0,1,94\n",
    "X,4294967296,1,2\n",
    "X,0,4294967297,2\n",
    "X,0,1,4294967298\n",
    "X,3,3,96\n",
    "M,94,1,0,0,0,0\n",
    "M,2,0,0,0,0,0\n",
    "M,2,4,0,0,0,0\n",
    "M,2,2,0,0,0,2147483647\n",
    "M,2,2,2147483647,0,0,0\n",
    "M,4294967298,2,0,0,0,0\n",
    "F,94\n",
    "F,95\n",
    "F,9999999999\n",
    "F,4294967298\n",
    "L,96,0,1,1,0\n",
    "L,5,96,1,1,0\n",
    "L,5,0,96,1,0\n",
    "L,5,0,1,2147483647,0\n",
    "L,5,0,1,0,2147483647\n",
    "L,5,0,1,0,4294967296\n",
    "L,0,3,3,0,9999999999\n",
    "L,4294967301,0,1,1,0\n",
];

/// Lines in order that the session has no rows for.
const WRONG_MARKS: &[&str] = &[
    "X,2,1,10\n",
    "X,0,3,10\n",
    "X,0,1,0\n",
    "X,0,1,1\n",
    "X,0,1,3\n",
    "X,0,1,93\n",
    "X,5,1,2\n",
    "F,2\n",
    "F,0\n",
    "F,93\n",
    "L,0,0,1,1,0\n",
    "L,5,2,1,1,0\n",
    "L,5,0,9,1,0\n",
    "L,2,0,1,1,0\n",
];

#[test]
fn forms_then_ranges_then_marks() {
    for line in WRONG_FORM {
        assert_eq!(refused_behind(1, line), [10], "{line:?}");
    }
    for line in OUT_OF_RANGE {
        assert_eq!(refused_behind(1, line), [11], "{line:?}");
    }
    for line in WRONG_MARKS {
        assert_eq!(refused_behind(1, line), [7], "{line:?}");
    }
    for line in [WRONG_FORM, OUT_OF_RANGE, WRONG_MARKS].concat() {
        assert_eq!(refusals(line.as_bytes()), [1], "{line:?}");
    }
}

#[test]
fn a_triple_gets_10_then_11_then_7() {
    let triple = |first: &str, last: &str| format!("T,{first}{},{last}\n", ",1".repeat(23));
    for (line, refusal) in [
        (triple("93", "2147483646"), 0),
        (triple("94", "1"), 11),
        (triple("4294967296", "1"), 11),
        (triple("20", "2147483647"), 11),
        (triple("94", "01"), 10),
        (triple("20", "1,1"), 10),
        (triple("20", "1").replace(",1\n", "\n"), 10),
        (triple("0", "1"), 7),
        (triple("8", "1"), 7),
        (triple("9", "1"), 7),
        (triple("13", "1"), 0),
    ] {
        assert_eq!(refused_behind(1, &line), [refusal], "{line}");
    }
    let twice = triple("20", "1") + &triple("22", "1") + &triple("23", "1");
    assert_eq!(refused_behind(1, &twice), [0, 7, 0]);
}

/// Opens row 4, the product of triple 2.
const OPEN_PRODUCT: &str = "O,4,2,27,9\nG,4\n";

/// The product's polynomial at post 2: v'' + y v' + y' v with y = 10 and y' = 30.
#[test]
fn the_product_opens_to_420() {
    let v = hand_row([0, 0]).v[1].clone();
    let message = v.iter().map(|number| number * (1 + 10 + 30)).collect::<Vec<_>>();
    let lines = format!("X,0,1,2\nM,2,2,0,0,0,0\nF,2\nO,4,2,{},{}\nG,4\n", message[0], message[1]);
    assert_eq!(behind(1, &lines).last(), Some(&(0, 420)));
    let wrong = format!("X,0,1,2\nM,2,2,0,0,0,0\nF,2\n{OPEN_PRODUCT}");
    assert_eq!(behind(1, &wrong).last(), Some(&(9, 0)));
}

/// "`M` lines, kept for one triple as `O` lines are for a row".
#[test]
fn masks_are_kept_for_one_triple() {
    let masks = "X,0,1,2\nX,1,0,10\n";
    // Nothing kept: 9. One for another triple empties the record, and F for that one finds its own.
    let other =
        refused_behind(1, &format!("{masks}F,2\nM,2,2,0,0,0,0\nM,10,3,0,0,0,0\nF,2\nF,10\n"));
    assert_eq!(other, [0, 0, 9, 0, 0, 9, 0]);
    // F for another triple finds an empty record, and leaves the one kept.
    let kept = refused_behind(1, &format!("{masks}M,2,2,0,0,0,0\nF,10\nF,2\nF,2\n"));
    assert_eq!(kept, [0, 0, 0, 9, 0, 7]);
    // A second from one post replaces the first.
    let replaced = format!("{masks}M,2,2,1,0,0,0\nF,2\nM,2,2,0,0,0,1\nF,2\nM,2,2,0,0,0,0\nF,2\n");
    assert_eq!(refused_behind(1, &replaced), [0, 0, 0, 9, 0, 9, 0, 0]);
}

#[test]
fn a_refused_mask_line_changes_nothing() {
    let refused = "M,10,4,0,0,0,0\nM,10,2,0,0,0\nM,2,2,2147483647,0,0,0\nM,94,2,0,0,0,0\n";
    let lines = format!("X,0,1,2\nM,2,2,0,0,0,0\n{refused}F,2\n");
    assert_eq!(refused_behind(1, &lines), [0, 0, 11, 10, 11, 11, 0]);
}

#[test]
fn masks_are_kept_whatever_the_marks() {
    // Before the masks are made, for an unused triple, for rows that are none.
    assert_eq!(refused_behind(1, "M,2,2,0,0,0,0\nX,0,1,2\nF,2\n"), [0, 0, 0]);
    assert_eq!(refused_behind(1, "M,93,2,0,0,0,0\nM,0,2,0,0,0,0\nF,93\n"), [0, 0, 7]);
}

#[test]
fn an_own_mask_line_is_kept_but_not_looked_at_and_may_empty_the_record() {
    assert_eq!(refused_behind(1, "X,0,1,2\nM,2,1,9,9,9,9\nM,2,2,0,0,0,0\nF,2\n"), [0; 4]);
    assert_eq!(refused_behind(1, "X,0,1,2\nM,2,1,0,0,0,0\nF,2\n"), [0, 0, 9]);
    let emptied = "X,0,1,2\nM,2,2,0,0,0,0\nM,10,1,0,0,0,0\nF,2\n";
    assert_eq!(refused_behind(1, emptied), [0, 0, 0, 9]);
}

/// Two records: `O` lines don't touch the masks, nor `M` lines the openings.
#[test]
fn openings_and_masks_are_kept_apart() {
    let lines =
        "X,0,1,2\nO,0,2,3,1\nM,2,2,0,0,0,0\nO,1,3,5,6\nF,2\nG,1\nM,10,3,1,1,1,1\nG,1\nG,0\n";
    let opened = behind(1, lines);
    assert_eq!(opened[4..], [(0, 0), (0, 35), (0, 0), (0, 35), (9, 0)]);
    // Nor do the lines that load, deal, add and multiply.
    let between = "O,0,2,3,1\nM,2,2,0,0,0,0\nX,0,1,2\nL,5,0,1,1,1\nX,1,1,10\nD,1,1\n";
    let answers = behind(1, &format!("{between}F,2\nG,0\n"));
    assert_eq!(answers, [(0, 0), (0, 0), (0, 0), (0, 0), (0, 0), (7, 0), (0, 0), (0, 12)]);
}

/// "In either record": the masks of b − l' too are opened with what was kept.
#[test]
fn both_halves_of_a_mask_line_count() {
    for (wrong, refusal) in [("1,0,0,0", 9), ("0,0,1,0", 9), ("0,0,0,0", 0)] {
        let lines = format!("X,0,1,2\nM,2,2,{wrong}\nF,2\n");
        assert_eq!(refused_behind(1, &lines), [0, 0, refusal]);
    }
}

#[test]
fn a_sum_over_the_street() {
    let lines = "L,5,0,1,2,2147483646\nO,5,2,9,3\nG,5\nL,5,0,1,0,0\nL,95,5,5,2147483646,7\n";
    assert_eq!(behind(1, lines), [(0, 0), (0, 0), (0, 81), (7, 0), (0, 0)]);
}
