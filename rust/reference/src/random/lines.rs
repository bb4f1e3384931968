//! Lines of right form, and small harm to them.

use super::Rng;
use crate::MODULUS;

/// The line of `letter` and these numbers.
pub fn join(letter: &str, numbers: impl IntoIterator<Item = u64>) -> Vec<u8> {
    let numbers = numbers.into_iter().map(|number| number.to_string());
    let fields: Vec<String> = std::iter::once(letter.to_string()).chain(numbers).collect();
    (fields.join(",") + "\n").into_bytes()
}

/// The `A` line of a row and the posts that may call for its opening.
pub fn callers_line(row: usize, posts: &[usize]) -> Vec<u8> {
    if posts.is_empty() {
        return format!("A,{row},\n").into_bytes();
    }
    join("A", std::iter::once(row).chain(posts.iter().copied()).map(|number| number as u64))
}

/// The line with something changed: a byte, a field, or its end.
pub fn mutate(rng: &mut Rng, line: &[u8]) -> Vec<u8> {
    match rng.below(8) {
        0 => insert_byte(rng, line),
        1 => remove_byte(rng, line),
        2 => replace_byte(rng, line),
        3 => change_end(rng, line),
        _ => change_field(rng, line),
    }
}

fn odd_byte(rng: &mut Rng) -> u8 {
    match rng.below(4) {
        0 => rng.below(256) as u8,
        1 => b'0' + rng.below(10) as u8,
        _ => rng.pick(b",,-+ \r\n\0DOMSRGTXFLWA\""),
    }
}

fn insert_byte(rng: &mut Rng, line: &[u8]) -> Vec<u8> {
    let mut line = line.to_vec();
    line.insert(rng.below(line.len() + 1), odd_byte(rng));
    line
}

fn remove_byte(rng: &mut Rng, line: &[u8]) -> Vec<u8> {
    let mut line = line.to_vec();
    if !line.is_empty() {
        line.remove(rng.below(line.len()));
    }
    line
}

fn replace_byte(rng: &mut Rng, line: &[u8]) -> Vec<u8> {
    let mut line = line.to_vec();
    if !line.is_empty() {
        let place = rng.below(line.len());
        line[place] = odd_byte(rng);
    }
    line
}

fn change_end(rng: &mut Rng, line: &[u8]) -> Vec<u8> {
    let body = line.strip_suffix(b"\n").unwrap_or(line);
    let end: &[u8] = rng.pick(&[b"" as &[u8], b"\r\n", b"\n\n", b",\n", b"\n,", b"\n0", b" \n"]);
    [body, end].concat()
}

/// Another number in one field, one field more, or one less.
fn change_field(rng: &mut Rng, line: &[u8]) -> Vec<u8> {
    let body = line.strip_suffix(b"\n").unwrap_or(line);
    let mut fields: Vec<Vec<u8>> = body.split(|&b| b == b',').map(<[u8]>::to_vec).collect();
    let choice = rng.below(fields.len());
    match rng.below(8) {
        0 => {
            fields.remove(choice);
        }
        1 => fields.insert(choice, fields[choice].clone()),
        2 => fields[choice].insert(0, b'0'),
        3 => fields[choice].clear(),
        4 => fields[choice] = wrapped(&fields[choice]),
        _ => fields[choice] = odd_number(rng),
    }
    [fields.join(&b','), b"\n".to_vec()].concat()
}

/// The number plus 2^32: of right form, and another number unless it wraps.
fn wrapped(field: &[u8]) -> Vec<u8> {
    let digits = std::str::from_utf8(field).ok();
    match digits.and_then(|digits| digits.parse::<u64>().ok()) {
        Some(number) => number.wrapping_add(1 << 32).to_string().into_bytes(),
        None => field.to_vec(),
    }
}

fn odd_number(rng: &mut Rng) -> Vec<u8> {
    let edge = [
        0,
        1,
        32,
        33,
        93,
        94,
        95,
        96,
        255,
        256,
        u64::from(MODULUS) - 1,
        u64::from(MODULUS),
        u64::from(u32::MAX),
        1 << 32,
        9_999_999_999,
        10_000_000_000,
        u64::MAX,
    ];
    rng.pick(&edge).to_string().into_bytes()
}
