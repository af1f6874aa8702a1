//! A table handed over in numbers and without a text: four for each line, its
//! service, the length and the value of its suffix, and its backend. Services
//! have the numbers and backends the ids that their sheet would show.

use crate::expansion::Rule;
use crate::limits::{MOST_BITS, MOST_BYTES, MOST_CAPACITY, MOST_ID, MOST_SERVICES, MOST_TOTAL};
use crate::numerals::number_width;
use crate::refusal::{Reason, Refusal};
use crate::rule_sheet::{lend, text_of};
use crate::suffix::Suffix;
use crate::table::{LineOrder, RuleLine, Table};

/// The numbers of rule lines.
pub fn numbers_of(lines: &[RuleLine]) -> Vec<u64> {
    let mut numbers = Vec::with_capacity(4 * lines.len());
    for line in lines {
        let suffix = line.rule.suffix;
        numbers.push(u64::from(line.service));
        numbers.push(u64::from(suffix.length()));
        numbers.push(u64::from(suffix.value()));
        numbers.push(u64::from(line.rule.backend));
    }
    numbers
}

/// The table that is handed over, checked as its sheet would be; numbers left
/// over are a last line of too few fields.
pub fn table_of(k: u64, total: u64, numbers: &[u64]) -> Result<Table, Reason> {
    let (lines, rest) = numbers.as_chunks::<4>();
    let n = lines.len() as u64 + u64::from(!rest.is_empty());
    if text_length([k, n, total], lines, rest) > MOST_BYTES as u128 {
        return Err(Reason::TooLong);
    }
    let head = [
        (k, 1, MOST_BITS),
        (n, 1, MOST_CAPACITY),
        (total, 0, MOST_TOTAL),
    ];
    if head
        .iter()
        .any(|&(number, lo, hi)| number < lo || number > hi)
    {
        return Err(Reason::BadField);
    }
    let mut order = LineOrder::new();
    let mut table = Table {
        k: k as u8,
        total,
        lines: Vec::with_capacity(lines.len()),
    };
    for line in lines {
        let line = line_of(k, line).ok_or(Reason::BadField)?;
        order.admit(&line)?;
        table.lines.push(line);
    }
    if !rest.is_empty() {
        Err(Reason::Malformed)
    } else if !order.complete() {
        Err(Reason::Order)
    } else {
        Ok(table)
    }
}

/// The length of the text that the numbers make, whatever they are: line 1,
/// the whole lines, and a last line of the first number left over.
fn text_length(head: [u64; 3], lines: &[[u64; 4]], rest: &[u64]) -> u128 {
    let numeral = |number: u64| number_width(number) as u128;
    let head = head.iter().map(|&number| 1 + numeral(number));
    let line = |&[service, length, _, backend]: &[u64; 4]| {
        numeral(service) + 2 + u128::from(length) + 1 + numeral(backend) + 1
    };
    let last = rest.first().map(|&number| numeral(number) + 1);
    "TABLE\n".len() as u128 + head.chain(lines.iter().map(line)).chain(last).sum::<u128>()
}

/// One line, if each of its numbers is within its limits.
pub(crate) fn line_of(k: u64, &[service, length, value, backend]: &[u64; 4]) -> Option<RuleLine> {
    let within =
        (1..=MOST_SERVICES).contains(&service) && length <= k && (1..=MOST_ID).contains(&backend);
    if !within {
        return None;
    }
    let suffix = Suffix::new(length, value)?;
    let (service, backend) = (service as u8, backend as u16);
    let rule = Rule { suffix, backend };
    Some(RuleLine { service, rule })
}

/// Writes the rule sheet of a table that is handed over into a lent buffer, and
/// returns its length; nothing is written if the table is refused or the buffer
/// is too short.
pub fn write(k: u64, total: u64, numbers: &[u64], buffer: &mut [u8]) -> Result<usize, Refusal> {
    let table = table_of(k, total, numbers).map_err(|reason| reason.at(0))?;
    lend(&text_of(&table), buffer)
}

#[cfg(test)]
mod tests {
    use super::*;
    use crate::random::Random;
    use crate::rule_sheet::read;
    use crate::vectors::shapes::rule_table;
    use crate::vectors::spoil::spoil_numbers;

    const SAMPLE: &str = "TABLE 5 5 29333392000\n1 *0 2\n1 * 3\n2 *00 2\n2 *0 1\n2 * 3\n";
    const TOTAL: u64 = 29_333_392_000;
    const NUMBERS: [u64; 20] = [1, 1, 0, 2, 1, 0, 0, 3, 2, 2, 0, 2, 2, 1, 0, 1, 2, 0, 0, 3];

    fn refused(k: u64, total: u64, numbers: &[u64]) -> Refusal {
        write(k, total, numbers, &mut []).unwrap_err()
    }

    #[test]
    fn the_sample_is_written_whole_or_not_at_all() {
        let table = read(SAMPLE.as_bytes()).unwrap();
        assert_eq!(numbers_of(&table.lines), NUMBERS);
        assert_eq!(table_of(5, TOTAL, &NUMBERS), Ok(table));
        let mut buffer = vec![b'.'; SAMPLE.len() + 1];
        assert_eq!(write(5, TOTAL, &NUMBERS, &mut buffer), Ok(SAMPLE.len()));
        assert_eq!(buffer, (SAMPLE.to_string() + ".").as_bytes());
        let mut short = vec![b'.'; SAMPLE.len() - 1];
        let refusal = write(5, TOTAL, &NUMBERS, &mut short).unwrap_err();
        assert_eq!(refusal, Reason::ShortLoan.at(0));
        assert!(short.iter().all(|&byte| byte == b'.'));
    }

    #[test]
    fn numbers_left_over_are_a_last_line_of_too_few_fields() {
        for length in [1, 2, 3, 5, 18, 19] {
            let numbers = &NUMBERS[..length];
            assert_eq!(refused(5, TOTAL, numbers), Reason::Malformed.at(0));
            assert_eq!(refused(13, TOTAL, numbers), Reason::BadField.at(0));
            assert_eq!(refused(5, u64::MAX, numbers), Reason::BadField.at(0));
        }
        let behind = |line: [u64; 4]| refused(5, 0, &[&line[..], &[1, 0, 0]].concat());
        assert_eq!(behind([1, 5, 0, 1]), Reason::Malformed.at(0));
        assert_eq!(behind([1, 6, 0, 1]), Reason::BadField.at(0));
        let stars = [1, 0, 0, 1, 1, 0, 0, 1, 1];
        assert_eq!(refused(5, 0, &stars), Reason::Order.at(0));
    }

    #[test]
    fn a_text_over_its_limit_comes_before_everything() {
        for (length, reason) in [
            (65_511, Reason::BadField),
            (65_512, Reason::TooLong),
            (1_000_000, Reason::TooLong),
            (u64::MAX - 20, Reason::TooLong),
            (u64::MAX, Reason::TooLong),
        ] {
            let numbers = [1, length, 0, 1, 1, 0, 0, 1, 1, 0];
            assert_eq!(refused(13, 1, &numbers[..8]), reason.at(0));
            assert_eq!(refused(13, 1_234_567, &numbers), Reason::TooLong.at(0));
        }
        let halves = [1, 1 << 63, 0, 1].repeat(2);
        assert_eq!(refused(5, 0, &halves), Reason::TooLong.at(0));
        for (lines, reason) in [(10_920, Reason::BadField), (10_921, Reason::TooLong)] {
            assert_eq!(refused(5, 0, &[1, 0, 0, 1].repeat(lines)), reason.at(0));
        }
    }

    /// Up to the largest total before request 07, and from there to the largest.
    #[test]
    fn totals_at_their_limits() {
        for total in [
            2_621_440_000_000_000,
            2_621_440_000_000_001,
            262_143_999_999_999_999,
            262_144_000_000_000_000,
        ] {
            let text = SAMPLE.replace(&TOTAL.to_string(), &total.to_string());
            let mut buffer = vec![b'.'; text.len()];
            assert_eq!(write(5, total, &NUMBERS, &mut buffer), Ok(text.len()));
            assert_eq!(buffer, text.as_bytes());
        }
        for total in [262_144_000_000_000_001, 1 << 58, 1 << 63, u64::MAX] {
            assert_eq!(refused(5, total, &NUMBERS), Reason::BadField.at(0));
        }
    }

    #[test]
    fn the_number_of_lines_comes_before_them() {
        for lines in [0, 2_049, 10_000] {
            let refusal = refused(5, 0, &[1, 0, 0, 1].repeat(lines));
            assert_eq!(refusal, Reason::BadField.at(0));
        }
        let stars = [1, 0, 0, 1].repeat(2_048);
        assert_eq!(refused(5, 0, &stars), Reason::Order.at(0));
    }

    #[test]
    fn services_and_backends_at_their_limits() {
        for (service, backend) in [(1, 1), (64, 9_999), (9, 33)] {
            let table = table_of(5, 0, &[service, 0, 0, backend]).unwrap();
            assert_eq!(numbers_of(&table.lines), [service, 0, 0, backend]);
        }
        for (service, backend) in [(0, 1), (65, 1), (1, 0), (1, 10_000), (1, 65_537)] {
            let refusal = refused(5, 0, &[service, 0, 0, backend]);
            assert_eq!(refusal, Reason::BadField.at(0));
        }
    }

    /// The sheet that numbers would have, where a value that its length can't
    /// hold is as many signs that are no bits.
    fn sheet(k: u64, total: u64, numbers: &[u64]) -> String {
        let mut text = format!("TABLE {k} {} {total}\n", numbers.len().div_ceil(4));
        for line in numbers.chunks(4) {
            let &[service, length, value, backend] = line else {
                text += &format!("{}\n", line[0]);
                continue;
            };
            let bit = |i: u64| {
                if i < 64 && value >> i & 1 == 1 {
                    '1'
                } else {
                    '0'
                }
            };
            let mut suffix: String = (0..length.min(70_000)).rev().map(bit).collect();
            suffix.insert(0, '*');
            if length < 64 && value >> length != 0 {
                suffix = "-".repeat(suffix.len());
            }
            text += &format!("{service} {suffix} {backend}\n");
        }
        text
    }

    #[test]
    fn a_table_is_checked_as_its_sheet_would_be() {
        let mut random = Random::new(29);
        for _ in 0..20_000 {
            let bits = random.within(1, 12);
            let table = rule_table(&mut random, bits, 4);
            let (mut k, mut total) = (bits, table.total);
            let mut numbers = numbers_of(&table.lines);
            match random.below(8) {
                0 => k = random.within(0, 14),
                1 => total = random.any_size(),
                _ => spoil_numbers(&mut random, &mut numbers),
            }
            let read = read(sheet(k, total, &numbers).as_bytes());
            let expected = read.map_err(|refusal| refusal.reason);
            assert_eq!(table_of(k, total, &numbers), expected);
        }
    }
}
