//! Writing a line: eight digits of a number at a time. The line is measured only where the room might be too short.

use gantsorol::{message_len, Written, ROWS};

use super::{any_beyond, checked_points, checked_shape};

/// The most bytes of a number and the comma before it.
const MOST_BYTES: usize = 11;

/// Writes an `O` line.
pub fn write_opening(
    n: usize,
    t: usize,
    points: usize,
    row: usize,
    post: usize,
    numbers: &[u32],
    out: &mut [u8],
) -> Written {
    written(checked_shape(n, t).and_then(|()| {
        checked([n, t, points], post, row, ROWS - 1, numbers, 1)?;
        write(b'O', row, post, numbers, out)
    }))
}

/// Writes an `M` line.
pub fn write_masks(
    n: usize,
    t: usize,
    points: usize,
    row: usize,
    post: usize,
    numbers: &[u32],
    out: &mut [u8],
) -> Written {
    written(checked_shape(n, t).and_then(|()| {
        checked([n, t, points], post, row, ROWS - 3, numbers, 2)?;
        write(b'M', row, post, numbers, out)
    }))
}

fn written(outcome: Result<usize, u8>) -> Written {
    match outcome {
        Ok(len) => Written { refusal: 0, len },
        Err(refusal) => Written { refusal, len: 0 },
    }
}

/// Refusals 3 to 8, of a line with so many messages.
fn checked(
    [n, t, points]: [usize; 3],
    post: usize,
    row: usize,
    last_row: usize,
    numbers: &[u32],
    messages: usize,
) -> Result<(), u8> {
    if post < 1 || post > n {
        return Err(3);
    }
    checked_points(points)?;
    match () {
        () if numbers.len() != messages * message_len(t, points) => Err(5),
        () if row > last_row => Err(6),
        () if any_beyond(numbers) => Err(8),
        () => Ok(()),
    }
}

fn write(
    letter: u8,
    row: usize,
    post: usize,
    numbers: &[u32],
    out: &mut [u8],
) -> Result<usize, u8> {
    let head = [row as u32, post as u32];
    // A row has up to 2 digits and a post up to 3.
    if out.len() < 9 + MOST_BYTES * numbers.len() && out.len() < len(&head) + len(numbers) + 2 {
        return Err(12);
    }
    out[0] = letter;
    let mut at = 1;
    for &number in head.iter().chain(numbers) {
        at += put(&mut out[at..], number);
    }
    out[at] = b'\n';
    Ok(at + 1)
}

/// The bytes of these numbers with a comma before each.
fn len(numbers: &[u32]) -> usize {
    numbers.iter().map(|number| 2 + number.checked_ilog10().unwrap_or(0) as usize).sum()
}

/// Writes a comma and the number at the start of `out`; how many bytes.
#[inline(always)]
fn put(out: &mut [u8], number: u32) -> usize {
    let (high, low) = (number / 100_000_000, number % 100_000_000);
    if high == 0 {
        return put_low(out, low);
    }
    let (pair, one) = (PAIRS[high as usize], usize::from(high < 10));
    let place = &mut out[..MOST_BYTES - one];
    // A single digit is written twice, and the second one is written over.
    (place[0], place[1], place[2]) = (b',', pair[one], pair[1]);
    place[3 - one..].copy_from_slice(&text(low).to_le_bytes());
    place.len()
}

/// The like for a number of up to eight digits.
#[inline(never)]
fn put_low(out: &mut [u8], number: u32) -> usize {
    let text = text(number);
    // The zeros before the first other digit, but not the last digit.
    let zeros = ((text & 0x0f0f_0f0f_0f0f_0f0f).trailing_zeros() as usize / 8).min(7);
    out[0] = b',';
    out[1..9 - zeros].copy_from_slice(&text.to_le_bytes()[zeros..]);
    9 - zeros
}

/// The two digits of each number below 22: a number of 31 bits has no more before its last eight digits.
const PAIRS: [[u8; 2]; 22] = {
    let mut pairs = [[0; 2]; 22];
    let mut k = 0;
    while k < pairs.len() {
        pairs[k] = [b'0' + k as u8 / 10, b'0' + k as u8 % 10];
        k += 1;
    }
    pairs
};

/// The eight digits of a number below 10^8, the first in the lowest byte: fours, then pairs, then all.
fn text(number: u32) -> u64 {
    let number = u64::from(number);
    let fours = (number / 10_000) | ((number % 10_000) << 32);
    let hundreds = ((fours * 10_486) >> 20) & 0x0000_007f_0000_007f;
    let pairs = hundreds | ((fours - 100 * hundreds) << 16);
    let tens = ((pairs * 103) >> 10) & 0x000f_000f_000f_000f;
    (tens | ((pairs - 10 * tens) << 8)) + 0x3030_3030_3030_3030
}
