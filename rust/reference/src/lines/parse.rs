//! The form of a line, apart from what its numbers mean.

/// The most digits of a number.
const MAX_DIGITS: usize = 10;

/// The line without its final line feed, `None` when there is none.
pub(crate) fn body(line: &[u8]) -> Option<&[u8]> {
    line.strip_suffix(b"\n")
}

/// "A number has 1 to 10 digits, no sign and no leading zero (0 is `0`)."
///
/// The number may pass 2^32: the form is right then, and the caller judges the size.
pub(crate) fn number(field: &[u8]) -> Option<u64> {
    let digits = 1..=MAX_DIGITS;
    let well_formed = digits.contains(&field.len())
        && field.iter().all(u8::is_ascii_digit)
        && (field.len() == 1 || field[0] != b'0');
    well_formed.then(|| field.iter().fold(0, |value, digit| value * 10 + u64::from(digit - b'0')))
}

/// Exactly `count` numbers.
pub(crate) fn numbers<'a>(
    fields: impl Iterator<Item = &'a [u8]>,
    count: usize,
) -> Option<Vec<u64>> {
    let numbers: Vec<u64> = fields.map(number).collect::<Option<_>>()?;
    (numbers.len() == count).then_some(numbers)
}

#[cfg(test)]
mod tests {
    use super::*;

    #[test]
    fn numbers_of_right_and_wrong_form() {
        assert_eq!(number(b"0"), Some(0));
        assert_eq!(number(b"9999999999"), Some(9_999_999_999));
        for wrong in ["", "00", "01", "+1", "-1", " 1", "1 ", "1\r", "10000000000", "1a"] {
            assert_eq!(number(wrong.as_bytes()), None, "{wrong:?}");
        }
    }
}
