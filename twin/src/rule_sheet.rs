//! The rule sheet: its reader and its writer (document 01, "Rule sheet").

use crate::expansion::Rule;
use crate::limits::{MOST_BITS, MOST_BYTES, MOST_CAPACITY, MOST_ID, MOST_SERVICES, MOST_TOTAL};
use crate::lines::fields;
use crate::numerals::{push_number, read_number};
use crate::refusal::{Reason, Refusal};
use crate::sheet_lines::{exactly_three, SheetLines};
use crate::suffix::Suffix;
use crate::table::{LineOrder, RuleLine, Table};

/// Reads a rule sheet.
pub fn read(text: &[u8]) -> Result<Table, Refusal> {
    let mut lines = SheetLines::open(text)?;
    let [k, n, total] = lines.take_head("TABLE")?;
    let k = lines.field(read_number(k, 1, MOST_BITS))? as u8;
    let n = lines.field(read_number(n, 1, MOST_CAPACITY))?;
    let total = lines.field(read_number(total, 0, MOST_TOTAL))?;
    let mut table = Table {
        k,
        total,
        lines: Vec::with_capacity(n as usize),
    };
    let mut order = LineOrder::new();
    while !lines.at_end() {
        let line = read_line(lines.take()?, k, &lines)?;
        order.admit(&line).map_err(|reason| lines.refusal(reason))?;
        table.lines.push(line);
    }
    if table.lines.is_empty() {
        Err(Reason::NoService.at(1))
    } else if table.lines.len() as u64 != n {
        Err(Reason::Miscount.at(1))
    } else if !order.complete() {
        Err(lines.refusal(Reason::Order))
    } else {
        Ok(table)
    }
}

/// A rule line: `service suffix backend`.
fn read_line(line: &[u8], k: u8, lines: &SheetLines) -> Result<RuleLine, Refusal> {
    let three = exactly_three(fields(line)).ok_or(lines.refusal(Reason::Malformed));
    let [service, suffix, backend] = three?;
    let service = lines.field(read_number(service, 1, MOST_SERVICES))? as u8;
    let suffix = lines.field(Suffix::read(suffix, u64::from(k)))?;
    let backend = lines.field(read_number(backend, 1, MOST_ID))? as u16;
    let rule = Rule { suffix, backend };
    Ok(RuleLine { service, rule })
}

/// The text of a table.
pub fn text_of(table: &Table) -> Vec<u8> {
    let mut text = Vec::with_capacity(40 + 20 * table.lines.len());
    text.extend(b"TABLE");
    for number in [u64::from(table.k), table.lines.len() as u64, table.total] {
        text.push(b' ');
        push_number(number, &mut text);
    }
    text.push(b'\n');
    for line in &table.lines {
        let (service, rule) = (u64::from(line.service), line.rule);
        push_line(service, rule.suffix, u64::from(rule.backend), &mut text);
    }
    text
}

/// Appends a rule line to a text that grows.
pub fn push_line(service: u64, suffix: Suffix, backend: u64, text: &mut Vec<u8>) {
    push_number(service, text);
    text.push(b' ');
    suffix.push(text);
    text.push(b' ');
    push_number(backend, text);
    text.push(b'\n');
}

/// Copies a text to the front of a lent buffer, or finds the buffer too short.
pub fn lend(text: &[u8], buffer: &mut [u8]) -> Result<usize, Refusal> {
    debug_assert!(text.len() <= MOST_BYTES);
    let front = buffer.get_mut(..text.len());
    front.ok_or(Reason::ShortLoan.at(0))?.copy_from_slice(text);
    Ok(text.len())
}

#[cfg(test)]
mod tests {
    use super::*;

    fn refused(text: &str) -> (u8, usize) {
        let refusal = read(text.as_bytes()).unwrap_err();
        (refusal.number(), refusal.line)
    }

    const SAMPLE: &str = "TABLE 5 5 29333392000\n1 *0 2\n1 * 3\n2 *00 2\n2 *0 1\n2 * 3\n";

    #[test]
    fn the_sample_reads_back() {
        let table = read(SAMPLE.as_bytes()).unwrap();
        assert_eq!(text_of(&table), SAMPLE.as_bytes());
    }

    #[test]
    fn heads_are_turned_back() {
        for text in [
            "",
            "TABLE 5 1 0",
            "SHEET 5 1 0\n",
            "TABLE 5 1\n",
            "TABLE 5 1 0 \n",
        ] {
            assert_eq!(refused(text), (1, 1), "{text:?}");
        }
        for head in [
            "0 1 0",
            "13 1 0",
            "5 0 0",
            "5 2049 0",
            "5 1 262144000000000001",
            "5 1 1000000000000000000",
            "5 1 00",
            " 1 0",
        ] {
            assert_eq!(
                refused(&format!("TABLE {head}\n1 * 1\n")),
                (2, 1),
                "{head:?}"
            );
        }
        assert_eq!(refused("TABLE 5 1 0\n"), (5, 1));
        assert_eq!(refused("TABLE 5 2 0\n1 * 1\n"), (10, 1));
        assert_eq!(refused("TABLE 5 2 0\n1 *0 1\n"), (10, 1));
        assert_eq!(refused("TABLE 5 1 0\n1 *0 1\n"), (9, 2));
        assert_eq!(refused(&" ".repeat(65_537)), (11, 0));
    }

    /// The largest total before request 07, those next to it, and on to the largest.
    #[test]
    fn totals_are_read_and_written() {
        for total in [
            0,
            2_621_439_999_999_999,
            2_621_440_000_000_000,
            2_621_440_000_000_001,
            9_999_999_999_999_999,
            10_000_000_000_000_000,
            99_999_999_999_999_999,
            100_000_000_000_000_000,
            262_143_999_999_999_999,
            262_144_000_000_000_000,
        ] {
            let text = format!("TABLE 5 1 {total}\n1 * 1\n");
            let table = read(text.as_bytes()).unwrap();
            assert_eq!(table.total, total);
            assert_eq!(text_of(&table), text.as_bytes());
        }
    }

    #[test]
    fn rule_lines_are_turned_back() {
        let lines = |lines: &str| refused(&format!("TABLE 2 1 0\n{lines}"));
        for line in ["1 * 1", "\n", "1 *\n", "1 * 1 \n", "1 * 1 1\n"] {
            assert_eq!(lines(line), (1, 2), "{line:?}");
        }
        for line in [
            "0 * 1\n",
            "65 * 1\n",
            "1 *000 1\n",
            "1 * 0\n",
            "1 * 10000\n",
            "1  1\n",
            "1 ** 1\n",
            "1 * 01\n",
        ] {
            assert_eq!(lines(line), (2, 2), "{line:?}");
        }
        assert_eq!(lines("2 * 1\n1 * 1\n"), (9, 3));
        assert_eq!(lines("1 * 1\n1 * 1\n"), (9, 3));
        assert_eq!(lines("1 * 1\n1 *0 1\n"), (9, 3));
        assert_eq!(lines("1 *0 1\n1 *00 1\n"), (9, 3));
        assert_eq!(lines("1 *0 1\n2 * 1\n"), (9, 3));
    }

    #[test]
    fn ids_are_of_1_to_9_999() {
        for id in ["1", "33", "9999"] {
            let text = format!("TABLE 2 1 0\n1 * {id}\n");
            let table = read(text.as_bytes()).unwrap();
            assert_eq!(table.lines[0].rule.backend.to_string(), id);
            assert_eq!(text_of(&table), text.as_bytes());
        }
        for id in ["0", "10000", "65537", "0001", "1:", ":1", "1:100", ""] {
            let text = format!("TABLE 2 1 0\n1 * {id}\n");
            assert_eq!(refused(&text), (2, 2), "{id:?}");
        }
    }

    #[test]
    fn the_33rd_rule_comes_before_the_order() {
        let thirty_two = "1 *0 1\n".repeat(31) + "1 * 1\n";
        let sheet = |lines: &str| refused(&format!("TABLE 2 1 0\n{lines}"));
        assert_eq!(sheet(&format!("{thirty_two}1 * 1\n")), (4, 34));
        assert_eq!(sheet(&format!("{thirty_two}2 * 1\n1 * 1\n")), (4, 35));
        assert_eq!(sheet(&thirty_two), (10, 1));
    }
}
