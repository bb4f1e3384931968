//! Reading a line: one pass over the text, the first eight digits of a number at once, into a list of its own, which is
//! copied when the whole line is right.

use gantsorol::{line_list_len, masks_len, message_len, Line, MAX_POSTS, MODULUS, ROWS};

use super::{checked_points, checked_shape, FEW, FEW_SENT, MOST_NUMBERS};

const MOST_DIGITS: usize = 10;

/// Reads a line.
pub fn read(n: usize, t: usize, points: usize, line: &[u8], out: &mut [u32]) -> Line {
    let read = match (n <= FEW, points) {
        (true, 1) => read_into::<{ 2 * FEW }>,
        (true, _) => read_into::<{ 2 * FEW_SENT }>,
        (false, 1) => read_into::<{ 2 * MAX_POSTS }>,
        (false, _) => read_into::<MOST_NUMBERS>,
    };
    let none = |refusal| Line { refusal, letter: 0, row: 0, post: 0 };
    read([n, t, points], line, out).unwrap_or_else(none)
}

fn read_into<const N: usize>(
    [n, t, points]: [usize; 3],
    line: &[u8],
    out: &mut [u32],
) -> Result<Line, u8> {
    checked_shape(n, t)?;
    checked_points(points)?;
    if out.len() != line_list_len(t, points) {
        return Err(5);
    }
    let &[letter, ..] = line else { return Err(10) };
    let (last_row, count) = match letter {
        b'D' => (ROWS - 1, 1),
        b'O' => (ROWS - 1, message_len(t, points)),
        b'M' => (ROWS - 3, masks_len(t, points)),
        _ => return Err(10),
    };
    let mut rest = &line[1..];
    let (row, post) = (heading(&mut rest)?, if letter == b'D' { 0 } else { heading(&mut rest)? });
    let (mut numbers, mut beyond) = ([0; N], false);
    for place in &mut numbers[..count] {
        let (number, length) = number(rest);
        if length == 0 {
            return Err(10);
        }
        rest = &rest[length..];
        beyond |= number >= u64::from(MODULUS);
        *place = number as u32;
    }
    if *rest != *b"\n" {
        return Err(10);
    }
    let posts = if letter == b'D' { 0..=0 } else { 1..=n as u64 };
    if beyond || row > last_row as u64 || !posts.contains(&post) {
        return Err(11);
    }
    out[..count].copy_from_slice(&numbers[..count]);
    out[count..].fill(0);
    Ok(Line { refusal: 0, letter, row: row as usize, post: post as usize })
}

/// The next number, a row or a post.
fn heading(rest: &mut &[u8]) -> Result<u64, u8> {
    let (number, length) = short_number(rest);
    *rest = &rest[length..];
    if length == 0 {
        Err(10)
    } else {
        Ok(number)
    }
}

/// A comma and the number behind it: its value, and the length of both; 0 for a length where they are wrong.
#[inline(always)]
fn number(rest: &[u8]) -> (u64, usize) {
    let Some(&[comma, a, b, c, d, e, f, g, h, i, j]) = rest.first_chunk() else {
        return short_number(rest);
    };
    let first = eight([a, b, c, d, e, f, g, h]);
    if others(first) != 0 {
        return short_number(rest);
    }
    if (comma != b',') | (first & 0xff == 0) {
        return (0, 0);
    }
    // Up to two digits more. That no third one follows is seen when a comma or the line's end is asked for.
    let (ninth, tenth) = (i.wrapping_sub(b'0'), j.wrapping_sub(b'0'));
    let (nine, ten) = (ninth < 10, (ninth < 10) & (tenth < 10));
    let number = value(first);
    let number = if nine { number * 10 + u64::from(ninth) } else { number };
    let number = if ten { number * 10 + u64::from(tenth) } else { number };
    (number, 9 + usize::from(nine) + usize::from(ten))
}

/// The like where few bytes or few digits are left, digit by digit.
#[inline(never)]
fn short_number(rest: &[u8]) -> (u64, usize) {
    let [b',', text @ ..] = rest else { return (0, 0) };
    let (mut number, mut digits) = (0, 0);
    while let Some(digit @ b'0'..=b'9') = text.get(digits) {
        if digits == MOST_DIGITS {
            return (0, 0);
        }
        number = 10 * number + u64::from(digit - b'0');
        digits += 1;
    }
    if digits == 0 || (digits > 1 && text[0] == b'0') {
        return (0, 0);
    }
    (number, 1 + digits)
}

/// Eight bytes of text: a digit becomes its value, any other byte more than 9.
#[inline(always)]
fn eight(text: [u8; 8]) -> u64 {
    u64::from_le_bytes(text) ^ 0x3030_3030_3030_3030
}

/// The high bit of each byte that is no digit.
#[inline(always)]
fn others(bytes: u64) -> u64 {
    let high = 0x8080_8080_8080_8080;
    (((bytes & !high) + 0x7676_7676_7676_7676) | bytes) & high
}

/// The value of eight digits: pairs, then fours, then all.
#[inline(always)]
fn value(digits: u64) -> u64 {
    let pairs = digits * 10 + (digits >> 8);
    let (low, high) = (pairs & 0x0000_00ff_0000_00ff, (pairs >> 16) & 0x0000_00ff_0000_00ff);
    let whole = low.wrapping_mul(100 + (1_000_000 << 32));
    whole.wrapping_add(high.wrapping_mul(1 + (10_000 << 32))) >> 32
}
