//! Gauges for the load screen (document 02, request 01): a backend's part of a
//! service's suffixes, and the service's volume times that part.

use crate::fraction::Fraction;
use crate::limits::{MOST_ID, MOST_VOLUME};
use crate::refusal::{Reason, Refusal};
use crate::rule_sheet;
use std::fmt;

/// Which of the two gauges is read.
#[derive(Clone, Copy, PartialEq, Eq, Debug)]
pub enum Gauge {
    Share,
    Load,
}

/// One gauge of a backend, or the mark that the service isn't in the sheet.
#[derive(Clone, Copy, PartialEq, Debug)]
pub enum Reading {
    Share(f64),
    Load(f64),
    Absent,
}

/// Both gauges of a backend.
#[derive(Clone, Copy, PartialEq, Debug)]
pub struct Gauges {
    pub share: f64,
    pub load: f64,
}

/// Both gauges of a backend as fractions of whole numbers, shown with one space
/// between them.
#[derive(Clone, Copy, PartialEq, Eq, Debug)]
pub struct Fractions {
    pub share: Fraction,
    pub load: Fraction,
}

impl fmt::Display for Fractions {
    fn fmt(&self, out: &mut fmt::Formatter) -> fmt::Result {
        write!(out, "{} {}", self.share, self.load)
    }
}

/// Reads one gauge of a backend; a service that isn't there has a mark of its
/// own in place of refusal 8.
pub fn reading(
    rules: &[u8],
    service: u64,
    volume: u64,
    backend: u64,
    gauge: Gauge,
) -> Result<Reading, Refusal> {
    let found = found(rules, service, volume, backend)?;
    Ok(match (found, gauge) {
        (None, _) => Reading::Absent,
        (Some(fractions), Gauge::Share) => Reading::Share(fractions.share.double()),
        (Some(fractions), Gauge::Load) => Reading::Load(fractions.load.double()),
    })
}

/// The record of both gauges of a backend, or refusal 8 where the service isn't
/// there.
pub fn gauges(rules: &[u8], service: u64, volume: u64, backend: u64) -> Result<Gauges, Refusal> {
    let fractions = fractions(rules, service, volume, backend)?;
    Ok(Gauges {
        share: fractions.share.double(),
        load: fractions.load.double(),
    })
}

/// What `gauges` answers, before it is made a binary64 number.
pub fn fractions(
    rules: &[u8],
    service: u64,
    volume: u64,
    backend: u64,
) -> Result<Fractions, Refusal> {
    found(rules, service, volume, backend)?.ok_or(Reason::UnknownService.at(0))
}

/// Both gauges, or nothing if the service isn't there. The sheet's own refusals
/// come first, then the service, then the numbers beside the text.
fn found(
    rules: &[u8],
    service: u64,
    volume: u64,
    backend: u64,
) -> Result<Option<Fractions>, Refusal> {
    let table = rule_sheet::read(rules)?;
    if table.lines_of(service).is_empty() {
        return Ok(None);
    }
    if volume > MOST_VOLUME || !(1..=MOST_ID).contains(&backend) {
        return Err(Reason::BadField.at(0));
    }
    let held = table.share(service, backend as u16);
    Ok(Some(Fractions {
        share: Fraction::new(held, table.k),
        load: Fraction::new(volume as u32 * held, table.k),
    }))
}

#[cfg(test)]
mod tests {
    use super::*;
    use crate::calls::count_share;
    use crate::random::Random;
    use crate::rule_sheet::text_of;
    use crate::vectors::shapes::rule_table;
    use std::collections::BTreeSet;

    const SAMPLE: &[u8] = b"TABLE 5 5 29333392000\n1 *0 2\n1 * 3\n2 *00 2\n2 *0 1\n2 * 3\n";
    /// Backend 1 holds 8 + 4 + 1 of the 32 suffixes.
    const THIRTEEN: &[u8] = b"TABLE 5 4 0\n1 *00110 1\n1 *010 1\n1 *00 1\n1 * 2\n";

    fn said(rules: &[u8], service: u64, volume: u64, backend: u64) -> String {
        let answer = fractions(rules, service, volume, backend);
        answer.map_or_else(|refusal| refusal.to_string(), |found| found.to_string())
    }

    #[test]
    fn the_sample() {
        for (service, volume, backend, expected) in [
            (1, 55, 1, "0 0"),
            (1, 55, 2, "0.5 27.5"),
            (1, 55, 3, "0.5 27.5"),
            (1, 55, 32, "0 0"),
            (1, 55, 9_999, "0 0"),
            (2, 45, 1, "0.25 11.25"),
            (2, 45, 2, "0.25 11.25"),
            (2, 45, 3, "0.5 22.5"),
            (2, 0, 3, "0.5 0"),
            (2, 10_000, 3, "0.5 5000"),
        ] {
            assert_eq!(said(SAMPLE, service, volume, backend), expected);
        }
        let record = |share, load| Ok(Gauges { share, load });
        assert_eq!(gauges(SAMPLE, 2, 45, 1), record(0.25, 11.25));
        let read = |gauge| reading(SAMPLE, 2, 45, 1, gauge);
        assert_eq!(read(Gauge::Share), Ok(Reading::Share(0.25)));
        assert_eq!(read(Gauge::Load), Ok(Reading::Load(11.25)));
    }

    #[test]
    fn thirteen_of_thirty_two() {
        assert_eq!(said(THIRTEEN, 1, 55, 1), "0.40625 22.34375");
        assert_eq!(said(THIRTEEN, 1, 55, 2), "0.59375 32.65625");
    }

    #[test]
    fn nothing_is_plus_zero_and_the_whole_tree_is_one() {
        for k in 1..=12 {
            let sheet = format!("TABLE {k} 1 0\n64 * 9999\n").into_bytes();
            for backend in [1, 2, 32, 999, 9_998] {
                let none = gauges(&sheet, 64, 10_000, backend).unwrap();
                assert_eq!((none.share.to_bits(), none.load.to_bits()), (0, 0));
            }
            let whole = gauges(&sheet, 64, 10_000, 9_999).unwrap();
            assert_eq!((whole.share, whole.load), (1.0, 10_000.0));
            assert_eq!(said(&sheet, 64, 10_000, 9_999), "1 10000");
            let idle = gauges(&sheet, 64, 0, 9_999).unwrap();
            assert_eq!((idle.share, idle.load.to_bits()), (1.0, 0));
        }
    }

    #[test]
    fn lines_that_no_suffix_is_left_for_count_nothing() {
        let sheet = b"TABLE 3 5 0\n7 *1 2\n7 *1 5\n7 *0 1\n7 *1 3\n7 * 4\n";
        for (backend, expected) in [(1, "0.5 2"), (2, "0.5 2"), (3, "0 0"), (4, "0 0")] {
            assert_eq!(said(sheet, 7, 4, backend), expected);
        }
    }

    /// A refusal of the sheet, then the service, then the numbers: each answer
    /// with every choice of what is also wrong.
    #[test]
    fn the_order_of_refusals() {
        let bad = b"TABLE 5 2 0\n1 *0 1\n1 *00 1\n";
        for volume in [0, 10_000, 10_001, u64::MAX] {
            for backend in [0, 1, 33, 9_999, 10_000, 65_537, u64::MAX] {
                for service in [0, 1, 3, 64, 65, u64::MAX] {
                    let at_line = Err(Reason::Order.at(3));
                    assert_eq!(gauges(bad, service, volume, backend), at_line);
                }
                for service in [0, 3, 64, 65, 257, u64::MAX] {
                    let unknown = Err(Reason::UnknownService.at(0));
                    assert_eq!(gauges(SAMPLE, service, volume, backend), unknown);
                }
                let within = volume <= 10_000 && (1..=9_999).contains(&backend);
                let answer = gauges(SAMPLE, 1, volume, backend);
                let refused = Err(Reason::BadField.at(0));
                assert!(if within {
                    answer.is_ok()
                } else {
                    answer == refused
                });
            }
        }
    }

    /// One call is the other with a mark in place of 8.
    #[test]
    fn a_reading_is_one_side_of_the_record() {
        let mut random = Random::new(43);
        for turn in 0..400 {
            let table = rule_table(&mut random, 1 + turn % 12, 3);
            let mut text = text_of(&table);
            if turn % 7 == 0 {
                text.pop();
            }
            let service = random.below(5);
            let volume = random.below(10_200);
            let any = random.below(10_100);
            let own = u64::from(random.pick(&table.lines).rule.backend);
            let backend = if turn % 3 == 0 { any } else { own };
            let record = gauges(&text, service, volume, backend);
            let expected = |of: fn(Gauges) -> Reading| match record {
                Ok(record) => Ok(of(record)),
                Err(refusal) if refusal.reason == Reason::UnknownService => Ok(Reading::Absent),
                Err(refusal) => Err(refusal),
            };
            let read = |gauge| reading(&text, service, volume, backend, gauge);
            let share = expected(|record| Reading::Share(record.share));
            assert_eq!(read(Gauge::Share), share);
            let load = expected(|record| Reading::Load(record.load));
            assert_eq!(read(Gauge::Load), load);
        }
    }

    /// The count over a sheet's lines divided by 2^k; the shares of all backends
    /// make 1 and the loads the volume, without any rounding.
    #[test]
    fn gauges_are_of_the_count() {
        let mut random = Random::new(47);
        for turn in 0..120 {
            let table = rule_table(&mut random, 1 + turn % 12, 3);
            let text = text_of(&table);
            let service = u64::from(random.pick(&table.lines).service);
            let volume = random.below(10_001);
            let lines = table.lines_of(service);
            let ids: BTreeSet<u16> = lines.iter().map(|line| line.rule.backend).collect();
            let (mut shares, mut loads) = (0.0, 0.0);
            for backend in ids.into_iter().map(u64::from) {
                let (_, count) = count_share(&text, service, backend).unwrap();
                let found = gauges(&text, service, volume, backend).unwrap();
                let share = f64::from(count) / f64::from(1 << table.k);
                assert_eq!(found.share.to_bits(), share.to_bits());
                assert_eq!(found.load.to_bits(), (volume as f64 * share).to_bits());
                shares += found.share;
                loads += found.load;
            }
            assert_eq!((shares, loads), (1.0, volume as f64));
        }
    }
}
