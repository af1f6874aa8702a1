//! The calls on texts: the one call, lookup, churn and the count.

use crate::limits::MOST_ID;
use crate::packing::{pack_checked, Packing};
use crate::refusal::{Reason, Refusal};
use crate::rule_sheet::{lend, text_of};
use crate::table::Table;
use crate::{percentage_sheet, rule_sheet};
use std::fmt;

/// The one call: a percentage sheet in, its table and its figures out.
pub fn split(sheet: &[u8]) -> Result<Packing, Refusal> {
    let order = percentage_sheet::read(sheet)?;
    Ok(pack_checked(&order))
}

/// The one call with a lent buffer, which takes the rule sheet; nothing is
/// written if the sheet is refused or the buffer is too short.
pub fn split_into(sheet: &[u8], buffer: &mut [u8]) -> Result<(Packing, usize), Refusal> {
    let packing = split(sheet)?;
    let length = lend(&text_of(&packing.table), buffer)?;
    Ok((packing, length))
}

/// The program: prints the rule sheet, or `REFUSED number line`.
pub fn program(sheet: &[u8]) -> Vec<u8> {
    match split(sheet) {
        Ok(packing) => text_of(&packing.table),
        Err(refusal) => format!("{refusal}\n").into_bytes(),
    }
}

/// Lookup: the backend of the first matching line of a service for an address,
/// which has 32 bits.
pub fn lookup(rules: &[u8], service: u64, address: u64) -> Result<u16, Refusal> {
    let table = rule_sheet::read(rules)?;
    if table.lines_of(service).is_empty() {
        return Err(Reason::UnknownService.at(0));
    }
    let address = u32::try_from(address).map_err(|_| Reason::BadField.at(0))?;
    let backend = table.backend(service, address);
    Ok(backend.expect("a service ends in its `*`, which matches every address"))
}

/// A refusal of a call on two sheets, with the sheet that it is about: 1 or 2,
/// or 0 for neither.
#[derive(Clone, Copy, PartialEq, Eq, Debug)]
pub struct PairRefusal {
    pub refusal: Refusal,
    pub which: u8,
}

impl fmt::Display for PairRefusal {
    fn fmt(&self, out: &mut fmt::Formatter) -> fmt::Result {
        write!(out, "{} {}", self.refusal, self.which)
    }
}

/// Churn: how many k-bit suffixes of a service have backends of unlike ids.
pub fn churn(first: &[u8], second: &[u8], service: u64) -> Result<u64, PairRefusal> {
    let (old, new) = two_tables(first, second, service)?;
    Ok(unlike(&old, &new, service))
}

/// The tables of two sheets, of like k and both with the service.
pub fn two_tables(
    first: &[u8],
    second: &[u8],
    service: u64,
) -> Result<(Table, Table), PairRefusal> {
    let about = |which: u8| move |refusal: Refusal| PairRefusal { refusal, which };
    let old = rule_sheet::read(first).map_err(about(1))?;
    let new = rule_sheet::read(second).map_err(about(2))?;
    for (which, table) in [(1, &old), (2, &new)] {
        if table.lines_of(service).is_empty() {
            return Err(about(which)(Reason::UnknownService.at(0)));
        }
    }
    if old.k != new.k {
        return Err(about(0)(Reason::Depth.at(0)));
    }
    Ok((old, new))
}

/// The number of suffixes whose backend differs, for tables of like k.
fn unlike(old: &Table, new: &Table, service: u64) -> u64 {
    let old = old.backends_by_place(service);
    let new = new.backends_by_place(service);
    old.iter().zip(&new).filter(|(a, b)| a != b).count() as u64
}

/// The count by first match over a sheet's lines: k, and how many of the 2^k
/// suffixes of a service a backend is given.
pub fn count_share(rules: &[u8], service: u64, backend: u64) -> Result<(u8, u32), Refusal> {
    let table = rule_sheet::read(rules)?;
    if table.lines_of(service).is_empty() {
        return Err(Reason::UnknownService.at(0));
    }
    if !(1..=MOST_ID).contains(&backend) {
        return Err(Reason::BadField.at(0));
    }
    Ok((table.k, table.share(service, backend as u16)))
}

#[cfg(test)]
mod tests {
    use super::*;
    use crate::random::Random;
    use crate::vectors::shapes::{order, rule_table, sheet_text, OrderShape};

    const SAMPLE: &[u8] =
        b"SHEET 5 2 5\nSERVICE 55 1:16.6667 2:33.3333 3:50\nSERVICE 45 1:25 2:25 3:50\n";
    const RULES: &[u8] = b"TABLE 5 5 29333392000\n1 *0 2\n1 * 3\n2 *00 2\n2 *0 1\n2 * 3\n";

    #[test]
    fn the_sample_sheet_and_case_p7() {
        assert_eq!(split(SAMPLE).unwrap().grants, [2, 3]);
        assert_eq!(program(SAMPLE), RULES);
        assert_eq!(program(b""), b"REFUSED 1 1\n");
    }

    #[test]
    fn a_lent_buffer_is_written_whole_or_not_at_all() {
        let mut buffer = vec![b'.'; RULES.len()];
        assert_eq!(split_into(SAMPLE, &mut buffer).unwrap().1, RULES.len());
        assert_eq!(buffer, RULES);
        let mut short = vec![b'.'; RULES.len() - 1];
        let refusal = split_into(SAMPLE, &mut short).unwrap_err();
        assert_eq!(refusal, Reason::ShortLoan.at(0));
        assert!(short.iter().all(|&byte| byte == b'.'));
    }

    #[test]
    fn lookup_takes_the_first_matching_line() {
        assert_eq!(lookup(RULES, 1, 0), Ok(2));
        assert_eq!(lookup(RULES, 1, u64::from(u32::MAX)), Ok(3));
        assert_eq!(lookup(RULES, 2, 4), Ok(2));
        assert_eq!(lookup(RULES, 2, 2), Ok(1));
        for service in [0, 3, 65, u64::MAX] {
            assert_eq!(lookup(RULES, service, 0), Err(Reason::UnknownService.at(0)));
        }
    }

    #[test]
    fn an_address_of_more_than_32_bits_comes_after_an_unknown_service() {
        for address in [1 << 32, u64::MAX] {
            assert_eq!(lookup(RULES, 1, address), Err(Reason::BadField.at(0)));
            assert_eq!(lookup(RULES, 3, address), Err(Reason::UnknownService.at(0)));
            assert_eq!(lookup(b"", 1, address), Err(Reason::Malformed.at(1)));
        }
    }

    #[test]
    fn churn_refusals_tell_which_sheet() {
        let shown = |first: &str, second: &str, service| {
            let answer = churn(first.as_bytes(), second.as_bytes(), service);
            answer.map_or_else(|refusal| refusal.to_string(), |count| count.to_string())
        };
        let (one, both) = ("TABLE 5 1 0\n1 * 1\n", "TABLE 5 2 0\n1 * 2\n2 * 1\n");
        let other = "TABLE 4 1 0\n1 * 1\n";
        assert_eq!(shown(one, both, 1), "32");
        assert_eq!(shown(both, both, 2), "0");
        assert_eq!(shown(one, both, 2), "REFUSED 8 0 1");
        assert_eq!(shown(both, one, 2), "REFUSED 8 0 2");
        assert_eq!(shown(one, one, 2), "REFUSED 8 0 1");
        assert_eq!(shown(one, other, 2), "REFUSED 8 0 1");
        assert_eq!(shown(one, other, 1), "REFUSED 12 0 0");
        assert_eq!(shown("", &" ".repeat(65_537), 1), "REFUSED 1 1 1");
        assert_eq!(shown(one, &" ".repeat(65_537), 1), "REFUSED 11 0 2");
        assert_eq!(shown(&" ".repeat(65_537), "", 1), "REFUSED 11 0 1");
        assert_eq!(shown(other, "TABLE 5 1 0\n1 *0 1\n", 9), "REFUSED 9 2 2");
    }

    #[test]
    fn churn_counts_what_lookup_answers() {
        let mut random = Random::new(19);
        for _ in 0..200 {
            let k = random.within(1, 7);
            let old = rule_table(&mut random, k, 3);
            let new = rule_table(&mut random, k, 3);
            for service in 1..=64 {
                if old.lines_of(service).is_empty() || new.lines_of(service).is_empty() {
                    continue;
                }
                let differs = |&s: &u32| old.backend(service, s) != new.backend(service, s);
                let expected = (0..1 << k).filter(differs).count() as u64;
                assert_eq!(churn(&text_of(&old), &text_of(&new), service), Ok(expected));
            }
        }
    }

    #[test]
    fn churn_matches_by_id_and_never_by_place() {
        let (old, new) = ("TABLE 2 2 0\n1 *0 20\n1 * 30\n", "TABLE 2 1 0\n1 * 30\n");
        assert_eq!(churn(old.as_bytes(), new.as_bytes(), 1), Ok(2));
        let other = old.replace("20", "19").replace("30", "31");
        assert_eq!(churn(old.as_bytes(), other.as_bytes(), 1), Ok(4));
        assert_eq!(churn(old.as_bytes(), old.as_bytes(), 1), Ok(0));
    }

    #[test]
    fn the_count_is_of_what_lookup_answers() {
        let mut random = Random::new(37);
        for turn in 0..120 {
            let table = rule_table(&mut random, 1 + turn % 12, 3);
            let text = text_of(&table);
            let service = u64::from(random.pick(&table.lines).service);
            let found: Vec<u16> = (0..1 << table.k)
                .map(|s| table.backend(service, s).unwrap())
                .collect();
            for line in &table.lines {
                let id = line.rule.backend;
                let expected = found.iter().filter(|&&other| other == id).count() as u32;
                let share = count_share(&text, service, u64::from(id));
                assert_eq!(share, Ok((table.k, expected)));
            }
        }
    }

    #[test]
    fn counts_of_ids_at_their_limits_and_refused_ones() {
        let sheet = b"TABLE 2 3 0\n1 *10 9999\n1 *0 7\n1 * 1\n";
        for (backend, share) in [(1, 2), (7, 1), (9_999, 1), (2, 0), (9_998, 0)] {
            assert_eq!(count_share(sheet, 1, backend), Ok((2, share)));
        }
        for (text, service, backend, expected) in [
            (RULES, 1, 0, Reason::BadField.at(0)),
            (RULES, 1, 10_000, Reason::BadField.at(0)),
            (RULES, 1, 65_538, Reason::BadField.at(0)),
            (RULES, 0, 10_000, Reason::UnknownService.at(0)),
            (RULES, 65, 1, Reason::UnknownService.at(0)),
            (RULES, u64::MAX, 0, Reason::UnknownService.at(0)),
            (b"TABLE 5 1 0\n1 *0 1\n", 2, 0, Reason::Order.at(2)),
            (b"", 1, 1, Reason::Malformed.at(1)),
        ] {
            assert_eq!(count_share(text, service, backend), Err(expected));
        }
    }

    #[test]
    fn a_printed_sheet_reads_back_to_its_table() {
        let mut random = Random::new(23);
        for _ in 0..100 {
            let shape = OrderShape {
                services: random.within(1, 8),
                backends: 8,
                bits: 12,
            };
            let order = order(&mut random, &shape);
            let packing = split(&sheet_text(&mut random, &order)).unwrap();
            assert_eq!(crate::packing::pack(&order).unwrap(), packing);
            let text = text_of(&packing.table);
            assert_eq!(rule_sheet::read(&text), Ok(packing.table));
        }
    }
}
