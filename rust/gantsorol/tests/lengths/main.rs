//! Lengths: the header's macros and the binding's functions are the same, and those that the library takes.

#[path = "../common/mod.rs"]
mod common;
mod taken;

use std::collections::BTreeMap;
use std::fmt::Write;
use std::fs;
use std::path::Path;
use std::process::Command;

use common::programs::{compiled, ended, repository, C, CPP};
use gantsorol::*;
use taken::session;

/// n, t and the number of check points a post.
const SIZES: [[usize; 3]; 11] = [
    [2, 1, 1],
    [2, 1, 2],
    [3, 1, 1],
    [3, 1, 2],
    [9, 8, 2],
    [10, 9, 1],
    [32, 15, 2],
    [99, 98, 1],
    [100, 10, 2],
    [255, 254, 1],
    [255, 254, 2],
];

/// Counts of product terms, of raw rows and of triples.
const COUNTS: [[usize; 2]; 4] = [[0, 0], [1, 0], [0, 1], [7, 5]];

/// The binding's function beside each macro: its arguments by their names, and its value for a size and two counts.
type Length = (&'static str, &'static str, fn([usize; 3], [usize; 2]) -> usize);

const LENGTHS: [Length; 27] = [
    ("CHECK_POINTS_LEN", "n, points", |[n, _, points], _| check_points_len(n, points)),
    ("ROW_LEN", "n, t, points", |[n, t, points], _| row_len(n, t, points)),
    ("ROWS_LEN", "n, t, points", |[n, t, points], _| rows_len(n, t, points)),
    ("MESSAGE_LEN", "t, points", |[_, t, points], _| message_len(t, points)),
    ("BLOCK_LEN", "t, points", |[_, t, points], _| block_len(t, points)),
    ("RECORD_LEN", "n, t, points", |[n, t, points], _| record_len(n, t, points)),
    ("MASKS_LEN", "t, points", |[_, t, points], _| masks_len(t, points)),
    ("RELATION_MASKS_LEN", "t, points, k", |[_, t, points], [k, _]| {
        relation_masks_len(t, points, k)
    }),
    ("RELATION_RECORDS_LEN", "n, t, points, k", |[n, t, points], [k, _]| {
        relation_records_len(n, t, points, k)
    }),
    ("LINE_LIST_LEN", "t, points", |[_, t, points], _| line_list_len(t, points)),
    ("ROW_DRAW_LEN", "n, t, points", |[n, t, points], _| row_draw_len(n, t, points)),
    ("TRIPLE_DRAW_LEN", "n, t, points", |[n, t, points], _| triple_draw_len(n, t, points)),
    ("DRAWS_LEN", "n, t, points, raw, triples", |[n, t, points], [raw, triples]| {
        draws_len(n, t, points, raw, triples)
    }),
    ("PACKS_LEN", "n, t, points", |[n, t, points], _| packs_len(n, t, points)),
    ("TRIPLE_PACK_LEN", "n, t, points", |[n, t, points], _| triple_pack_len(n, t, points)),
    ("TRIPLE_PACKS_LEN", "n, t, points", |[n, t, points], _| triple_packs_len(n, t, points)),
    ("DIGITS", "n", |[n, _, _], _| digits(n)),
    ("DEAL_LINE_LEN", "", |_, _| DEAL_LINE_LEN),
    ("DEALERS_LEN", "", |_, _| DEALERS_LEN),
    ("OPENING_LINE_LEN", "n, t, points", |[n, t, points], _| opening_line_len(n, t, points)),
    ("MASKS_LINE_LEN", "n, t, points", |[n, t, points], _| masks_line_len(n, t, points)),
    ("SETS_LEN", "", |_, _| SETS_LEN),
    ("ACCESS_LINE_LEN", "n", |[n, _, _], _| access_line_len(n)),
    ("START_LINE_LEN", "n, t, points", |[n, t, points], _| start_line_len(n, t, points)),
    ("ROW_LINE_LEN", "n, t, points", |[n, t, points], _| row_line_len(n, t, points)),
    ("TRIPLE_LINE_LEN", "n, t, points", |[n, t, points], _| triple_line_len(n, t, points)),
    ("PACK_FILE_LEN", "n, t, points, raw, triples", |[n, t, points], [raw, triples]| {
        pack_file_len(n, t, points, raw, triples)
    }),
];

/// The lengths in figures: a row has t+1+2n numbers, or 2t+1+3n; a message t+1 or 2t+1; f t+1 either way.
#[test]
fn the_lengths_in_figures() {
    let figures = |points: usize| {
        let lists = [row_len(3, 1, points), message_len(1, points), masks_len(1, points)];
        let more = [record_len(3, 1, points), row_draw_len(3, 1, points), rows_len(3, 1, points)];
        [lists, more].concat()
    };
    assert_eq!(figures(1), [8, 2, 4, 9, 8, 768]);
    assert_eq!(figures(2), [12, 3, 6, 12, 11, 1_152]);
    let square = |points: usize| {
        [row_len(255, 254, points), message_len(254, points), row_draw_len(255, 254, points)]
    };
    assert_eq!(square(1), [765, 255, 65_280]);
    assert_eq!(square(2), [1_274, 509, 130_050]);
    assert_eq!([1, 2].map(|points| masks_line_len(255, 254, points)), [5_619, 11_207]);
    assert_eq!([1, 2].map(|points| triple_line_len(32, 31, points)), [3_173, 5_252]);
}

/// A macro with its arguments.
fn used((name, arguments, _): &Length) -> String {
    match *arguments {
        "" => format!("GANTSOROL_{name}"),
        arguments => format!("GANTSOROL_{name}({arguments})"),
    }
}

/// Every macro with arguments of the header is above, with these arguments, and no other.
#[test]
fn every_length_of_the_header_is_compared() {
    let header = fs::read_to_string(repository().join("include/gantsorol.h")).expect("the header");
    let defined =
        header.lines().filter_map(|line| line.strip_prefix("#define ")).filter_map(|line| {
            let (name, rest) = line.split_once('(').filter(|(name, _)| !name.contains(' '))?;
            Some(format!("{name}({})", rest.split_once(')')?.0))
        });
    let mut defined: Vec<String> = defined.collect();
    let mut compared: Vec<String> =
        LENGTHS.iter().filter(|of| !of.1.is_empty()).map(used).collect();
    defined.sort();
    compared.sort();
    assert_eq!(defined, compared);
}

/// What each macro gives in C or C++, for each size and counts, in that order.
fn in_c(program: &str, options: &[&str]) -> String {
    let mut code = String::from("#include <stdio.h>\n#include \"gantsorol.h\"\n");
    code += "static void all(size_t n, size_t t, size_t points, size_t raw, size_t triples) {\nsize_t k = raw;\n(void)n;\n";
    for length in &LENGTHS {
        writeln!(code, "printf(\"%zu \", (size_t){});", used(length)).expect("text");
    }
    code += "puts(\"\");\n}\nint main(void) {\n";
    for ([n, t, points], [raw, triples]) in cases() {
        writeln!(code, "all({n}, {t}, {points}, {raw}, {triples});").expect("text");
    }
    code += "return 0;\n}\n";
    let source = Path::new(env!("CARGO_TARGET_TMPDIR")).join(format!("{program}.c"));
    fs::write(&source, code).expect("a file can be written");
    let printed = ended(&mut Command::new(compiled(program, &source, options))).stdout;
    String::from_utf8(printed).expect("numbers")
}

fn cases() -> impl Iterator<Item = ([usize; 3], [usize; 2])> {
    SIZES.into_iter().flat_map(|size| COUNTS.into_iter().map(move |counts| (size, counts)))
}

#[test]
fn the_headers_lengths_are_the_bindings() {
    let line = |(size, counts): ([usize; 3], [usize; 2])| {
        let numbers = LENGTHS.iter().map(|(_, _, length)| format!("{} ", length(size, counts)));
        numbers.chain(["\n".to_string()]).collect::<String>()
    };
    let expected: String = cases().map(line).collect();
    assert_eq!(in_c("lengths_c", &C), expected);
    assert_eq!(in_c("lengths_cpp", &CPP), expected);
}

/// The longest line of each kind takes exactly its length: one byte less is too little.
#[test]
fn the_longest_lines_have_these_lengths() {
    let most = MODULUS - 1;
    let check = |length: usize, write: &dyn Fn(&mut [u8]) -> Written| {
        assert_eq!(write(&mut vec![0; length]).accepted(), Ok(length));
        assert_eq!(write(&mut vec![0; length - 1]).accepted(), Err(Refusal::NoRoom));
    };
    for [n, t, points] in SIZES {
        let list = |len: usize| vec![most; len];
        check(DEAL_LINE_LEN, &|out| write_deal(n, t, ROWS - 1, most, out));
        let (message, masks) = (list(message_len(t, points)), list(masks_len(t, points)));
        let [opening, both] = [opening_line_len(n, t, points), masks_line_len(n, t, points)];
        check(opening, &|out| write_opening(n, t, points, ROWS - 1, n, &message, out));
        check(both, &|out| write_masks(n, t, points, ROWS - 3, n, &masks, out));
        assert!(opening < both && both <= LONGEST_LINE);
        // The `A` line with the last row and every post.
        let line = (1..=n).fold("A,95".to_string(), |line, post| format!("{line},{post}")) + "\n";
        assert!(line.len() == access_line_len(n) && line.len() <= LONGEST_LINE);
        let mut raw = session([n, t, points]);
        raw.marks[95] = 1;
        assert_eq!(raw.access(line.as_bytes()).refusal, 0);
    }
    assert_eq!(masks_line_len(MAX_POSTS, MAX_POSTS - 1, MAX_POINTS), LONGEST_LINE);
}

/// A file's text with the longest numbers in the places of elements.
fn longest(file: &str) -> String {
    let line = |line: &str| {
        let heads = if line.starts_with(['S', 'W']) { 4 } else { 2 };
        let element = |(at, field): (usize, &str)| {
            if at < heads {
                field.to_string()
            } else {
                (MODULUS - 1).to_string()
            }
        };
        line.split(',').enumerate().map(element).collect::<Vec<_>>().join(",") + "\n"
    };
    file.lines().map(line).collect()
}

/// With raw rows and triples from row 10 on, where a row has two digits, the longest file has exactly its length; below, a
/// row's line may have one byte less. And each draw is where it is said to be.
#[test]
fn the_longest_pack_file_has_this_length() {
    for [n, t, points] in SIZES {
        let mut kinds = [KIND_EMPTY; ROWS];
        for (row, kind) in [(10, KIND_TRIPLE), (13, KIND_RAW), (20, KIND_RAW), (93, KIND_TRIPLE)] {
            kinds[row] = kind;
        }
        let place = |row| draw_place(n, t, points, &kinds, row);
        assert_eq!(place(ROWS), draws_len(n, t, points, 2, 2));
        assert_eq!(place(20), triple_draw_len(n, t, points) + row_draw_len(n, t, points));
        let mut draws = vec![0; place(ROWS)];
        // f of row 20 is 1, and so is every sum of its row, where v1 to vn are 0.
        draws[place(20)] = 1;
        let own = vec![1; check_points_len(n, points)];
        let mut out = vec![0; pack_file_len(n, t, points, 2, 2)];
        let written = write_pack(n, t, n, points, &own, &kinds, &draws, &mut out);
        let length = written.accepted().expect("it fits");
        let file = std::str::from_utf8(&out[..length]).expect("text");
        assert_eq!(longest(file).len(), out.len());
        let lines: BTreeMap<&str, &str> = file.lines().map(|line| line.split_at(5)).collect();
        let zeros = "0,".repeat(row_len(n, t, points) - n);
        assert_eq!(lines["R,20,"], format!("{zeros}{}", vec!["1"; n].join(",")));
    }
}

/// The header's look at a set is the binding's, whatever bits stand there.
#[test]
fn the_header_reads_the_sets() {
    let code = "#include <stdio.h>\n#include \"gantsorol.h\"\nint main(void) {\nstatic uint32_t barred[GANTSOROL_SETS_LEN];\n\
                for (uint32_t i = 0; i < GANTSOROL_SETS_LEN; i++) barred[i] = (i + 1) * 0x9E3779B9u;\n\
                for (size_t n = 2; n <= 257; n += 15) for (size_t row = 0; row <= GANTSOROL_ROWS; row++)\n\
                for (size_t post = 0; post <= 257; post++) putchar('0' + gantsorol_may_call(n, barred, row, post));\n\
                return 0;\n}\n";
    let source = Path::new(env!("CARGO_TARGET_TMPDIR")).join("sets.c");
    fs::write(&source, code).expect("a file can be written");
    let printed = ended(&mut Command::new(compiled("sets", &source, &C))).stdout;
    let mut session = session([3, 1, 1]);
    session.barred = std::array::from_fn(|place| (place as u32 + 1).wrapping_mul(0x9E37_79B9));
    let mut expected = vec![];
    for n in (2..=257).step_by(15) {
        session.n = n;
        for row in 0..=ROWS {
            let callers = session.callers(row);
            expected.extend((0..=257).map(|post| b'0' + u8::from(callers.has(post))));
        }
    }
    assert!(printed == expected && printed.contains(&b'0') && printed.contains(&b'1'));
}

/// The header's walk over kinds is the binding's.
#[test]
fn the_header_finds_each_draw() {
    let mut kinds = [KIND_EMPTY; ROWS];
    for row in (0..ROWS).step_by(5) {
        kinds[row] = if row % 2 == 0 { KIND_TRIPLE } else { KIND_RAW };
    }
    let list = kinds.map(|kind| kind.to_string()).join(", ");
    let code = format!(
        "#include <stdio.h>\n#include \"gantsorol.h\"\nint main(void) {{\nconst uint8_t kinds[] = {{{list}}};\n\
         for (size_t row = 0; row <= GANTSOROL_ROWS; row++) printf(\"%zu\\n\", gantsorol_draw_place(32, 15, 2, kinds, row));\n\
         return 0;\n}}\n"
    );
    let source = Path::new(env!("CARGO_TARGET_TMPDIR")).join("draw_places.c");
    fs::write(&source, code).expect("a file can be written");
    let printed = ended(&mut Command::new(compiled("draw_places", &source, &C))).stdout;
    let expected: String =
        (0..=ROWS).map(|row| format!("{}\n", draw_place(32, 15, 2, &kinds, row))).collect();
    assert_eq!(String::from_utf8(printed).expect("numbers"), expected);
}
