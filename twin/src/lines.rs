//! Lines ended by LF and fields between single spaces.

/// The index of the first LF at or after a position.
pub fn find_lf(text: &[u8], from: usize) -> Option<usize> {
    let rest = text.get(from..)?;
    let ahead = rest.iter().position(|&byte| byte == b'\n')?;
    Some(from + ahead)
}

/// The fields of a line without its LF; an empty field counts too.
pub fn fields(line: &[u8]) -> impl Iterator<Item = &[u8]> + Clone {
    line.split(|&byte| byte == b' ')
}

/// The start and end of each field of a line without its LF.
pub fn field_ends(line: &[u8]) -> Vec<(usize, usize)> {
    let mut start = 0;
    let mut ends = Vec::new();
    for field in fields(line) {
        let end = start + field.len();
        ends.push((start, end));
        start = end + 1;
    }
    ends
}

#[cfg(test)]
mod tests {
    use super::*;

    #[test]
    fn lf_is_found_at_or_after_a_position() {
        assert_eq!(find_lf(b"ab\nc\n", 0), Some(2));
        assert_eq!(find_lf(b"ab\nc\n", 2), Some(2));
        assert_eq!(find_lf(b"ab\nc\n", 3), Some(4));
        assert_eq!(find_lf(b"ab\nc\n", 5), None);
        assert_eq!(find_lf(b"ab\nc\n", 6), None);
        assert_eq!(find_lf(b"", usize::MAX), None);
    }

    #[test]
    fn empty_fields_count() {
        assert_eq!(field_ends(b""), [(0, 0)]);
        assert_eq!(field_ends(b"a bc"), [(0, 1), (2, 4)]);
        assert_eq!(field_ends(b" a  "), [(0, 0), (1, 2), (3, 3), (4, 4)]);
    }
}
