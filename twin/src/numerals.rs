//! Decimal numbers and percentages (document 01, "Units and limits").

/// The most digits after the dot of a percentage.
pub const DECIMALS: usize = 6;

/// One percent: as many units as the digits after the dot can tell apart.
pub const PERCENT: u64 = 10u64.pow(DECIMALS as u32);

/// All of a weight: 100 percent, in hundred-millionths.
pub const WHOLE: u64 = 100 * PERCENT;

/// The value of one decimal digit, or nothing for any other byte.
fn digit(byte: u8) -> Option<u64> {
    byte.is_ascii_digit().then(|| u64::from(byte - b'0'))
}

/// Whether a numeral may begin so: no leading zero, where a lone 0 is allowed.
fn well_begun(text: &[u8]) -> bool {
    matches!(text, [b'0'] | [b'1'..=b'9', ..])
}

/// Reads the whole text as a decimal number of any length; one that 64 bits
/// can't hold counts as the greatest that they can.
pub fn read_numeral(text: &[u8]) -> Option<u64> {
    if !well_begun(text) {
        return None;
    }
    let mut value = 0u64;
    for &byte in text {
        value = value.saturating_mul(10).saturating_add(digit(byte)?);
    }
    Some(value)
}

/// Reads the whole text as a decimal number within `lo..=hi`.
pub fn read_number(text: &[u8], lo: u64, hi: u64) -> Option<u64> {
    if !well_begun(text) {
        return None;
    }
    let mut value = 0u64;
    for &byte in text {
        value = value.checked_mul(10)?.checked_add(digit(byte)?)?;
    }
    (lo..=hi).contains(&value).then_some(value)
}

/// Reads a percentage as hundred-millionths: a whole part of 1 to 3 digits and,
/// optionally, a dot and 1 to 6 digits; at most 100.
pub fn read_percentage(text: &[u8]) -> Option<u64> {
    let value = match text.iter().position(|&byte| byte == b'.') {
        None => PERCENT * read_number(text, 0, 100)?,
        Some(dot) => {
            PERCENT * read_number(&text[..dot], 0, 100)? + read_decimals(&text[dot + 1..])?
        }
    };
    (value <= WHOLE).then_some(value)
}

/// The 1 to 6 digits after the dot, as millionths of a percent.
fn read_decimals(text: &[u8]) -> Option<u64> {
    if text.is_empty() || text.len() > DECIMALS {
        return None;
    }
    let mut value = 0;
    for place in 0..DECIMALS {
        let next = text.get(place).map_or(Some(0), |&byte| digit(byte))?;
        value = 10 * value + next;
    }
    Some(value)
}

/// How many digits the number has when written.
pub fn number_width(mut number: u64) -> usize {
    let mut width = 1;
    while number >= 10 {
        number /= 10;
        width += 1;
    }
    width
}

/// Writes the number at a position of a lent buffer and returns the position
/// after its last digit; nothing is written if it doesn't fit.
pub fn write_number(mut number: u64, at: usize, buffer: &mut [u8]) -> Option<usize> {
    let end = at.checked_add(number_width(number))?;
    for byte in buffer.get_mut(at..end)?.iter_mut().rev() {
        *byte = b'0' + (number % 10) as u8;
        number /= 10;
    }
    Some(end)
}

/// Appends the number to a text that grows.
pub fn push_number(number: u64, text: &mut Vec<u8>) {
    let at = text.len();
    text.resize(at + number_width(number), b'0');
    write_number(number, at, text);
}

#[cfg(test)]
mod tests {
    use super::*;

    #[test]
    fn numbers_keep_their_form_and_limits() {
        assert_eq!(read_number(b"0", 0, 9), Some(0));
        assert_eq!(read_number(b"12", 1, 12), Some(12));
        assert_eq!(read_number(b"13", 1, 12), None);
        assert_eq!(read_number(b"0", 1, 12), None);
        for text in [
            &b""[..],
            b"00",
            b"01",
            b"+1",
            b"-1",
            b" 1",
            b"1 ",
            b"1/",
            b":",
        ] {
            assert_eq!(read_number(text, 0, u64::MAX), None);
        }
    }

    #[test]
    fn long_numerals_never_wrap() {
        let top = b"18446744073709551615";
        assert_eq!(read_number(top, 0, u64::MAX), Some(u64::MAX));
        assert_eq!(read_number(b"18446744073709551616", 0, u64::MAX), None);
        assert_eq!(read_number(&[b'9'; 60_000], 0, u64::MAX), None);
    }

    #[test]
    fn numerals_of_any_length_are_numerals() {
        for (text, value) in [("0", 0), ("10", 10), ("18446744073709551615", u64::MAX)] {
            assert_eq!(read_numeral(text.as_bytes()), Some(value));
        }
        assert_eq!(read_numeral(b"18446744073709551617"), Some(u64::MAX));
        assert_eq!(read_numeral(&[b'1'; 100_000]), Some(u64::MAX));
        let long = "9".repeat(99) + "x";
        for text in ["", "00", "01", "+1", "-0", "1 ", "1x", "x", &long] {
            assert_eq!(read_numeral(text.as_bytes()), None);
        }
    }

    #[test]
    fn the_unit_is_a_hundred_millionth() {
        assert_eq!((DECIMALS, PERCENT, WHOLE), (6, 1_000_000, 100_000_000));
    }

    #[test]
    fn cases_p9_to_p12_and_the_also_line() {
        assert_eq!(read_percentage(b"18.4.2"), None);
        assert_eq!(read_percentage(b"100.0000"), Some(WHOLE));
        assert_eq!(read_percentage(b"100.000000"), Some(WHOLE));
        assert_eq!(read_percentage(b"100.0001"), None);
        assert_eq!(read_percentage(b"100.000001"), None);
        assert_eq!(read_percentage(b"018.4"), None);
        for text in [&b"18."[..], b".4", b"18.4000000", b"", b".", b"00", b"1e1"] {
            assert_eq!(read_percentage(text), None);
        }
        assert_eq!(read_percentage(b"18.4"), Some(18_400_000));
        assert_eq!(read_percentage(b"18.40000"), Some(18_400_000));
        assert_eq!(read_percentage(b"16.6667"), Some(16_666_700));
        assert_eq!(read_percentage(b"16.666667"), Some(16_666_667));
        assert_eq!(read_percentage(b"0.0001"), Some(100));
        assert_eq!(read_percentage(b"0.00001"), Some(10));
        assert_eq!(read_percentage(b"0.000001"), Some(1));
        assert_eq!(read_percentage(b"0.0"), Some(0));
    }

    /// Any number of zeros at the end, as long as there are at most six decimals.
    #[test]
    fn zeros_at_the_end_change_nothing() {
        for (text, value) in [
            ("100.", 100 * PERCENT),
            ("0.", 0),
            ("7.", 7 * PERCENT),
            ("7.5", 7_500_000),
            ("7.05", 7_050_000),
            ("7.005", 7_005_000),
            ("7.0005", 7_000_500),
            ("7.00005", 7_000_050),
            ("7.000005", 7_000_005),
            ("99.999999", 99_999_999),
            ("7.0000005", u64::MAX),
        ] {
            let decimals = text.len() - text.find('.').unwrap() - 1;
            for zeros in 0..9 {
                let all = decimals + zeros;
                let expected = (1..=6).contains(&all).then_some(value);
                let text = text.to_string() + &"0".repeat(zeros);
                assert_eq!(read_percentage(text.as_bytes()), expected, "{text}");
            }
        }
    }

    #[test]
    fn written_numbers_fit_or_change_nothing() {
        let mut buffer = *b"......";
        assert_eq!(write_number(1205, 1, &mut buffer), Some(5));
        assert_eq!(&buffer, b".1205.");
        assert_eq!(write_number(120, 4, &mut buffer), None);
        assert_eq!(write_number(0, 6, &mut buffer), None);
        assert_eq!(write_number(0, usize::MAX, &mut buffer), None);
        assert_eq!(&buffer, b".1205.");
    }
}
