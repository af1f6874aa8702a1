//! Vectors for the gauges: `R` reads one of them, `G` both.

use super::records::{Record, Records};
use super::rule_sheets::{some_service, SAMPLE};
use super::shapes::{order, rule_table, OrderShape};
use super::sheets::shown;
use super::spoil::spoil;
use crate::expansion::Rule;
use crate::gauges::{gauges, reading, Gauge, Reading};
use crate::limits::{MOST_ID, MOST_TOTAL, MOST_VOLUME};
use crate::packing::pack_checked;
use crate::random::Random;
use crate::rule_sheet::text_of;
use crate::suffix::Suffix;
use crate::table::{RuleLine, Table};
use Call::{Both, Load, Share};

/// What the twin says to one record; nothing if the record is of no kind. Each
/// double is shown as the number that its 64 bits are.
pub fn answer(record: &Record) -> Option<String> {
    let sheet = record.payload;
    match (record.kind, record.numbers.as_slice()) {
        ("R", &[service, volume, backend, which]) => {
            let gauge = gauge_of(which)?;
            let reading = reading(sheet, service, volume, backend, gauge);
            Some(shown(reading.map(reading_text)))
        }
        ("G", &[service, volume, backend]) => {
            let gauges = gauges(sheet, service, volume, backend).map(|gauges| {
                let (share, load) = (gauges.share.to_bits(), gauges.load.to_bits());
                format!("gauges {share} {load}")
            });
            Some(shown(gauges))
        }
        _ => None,
    }
}

/// The gauge of a number: 1 is the share, 2 the load.
fn gauge_of(which: u64) -> Option<Gauge> {
    match which {
        1 => Some(Gauge::Share),
        2 => Some(Gauge::Load),
        _ => None,
    }
}

fn reading_text(reading: Reading) -> String {
    match reading {
        Reading::Share(share) => format!("share {}", share.to_bits()),
        Reading::Load(load) => format!("load {}", load.to_bits()),
        Reading::Absent => "absent".to_string(),
    }
}

/// What a vector asks about a sheet.
#[derive(Clone, Copy)]
struct Question {
    service: u64,
    volume: u64,
    backend: u64,
}

/// A question about service, volume and backend.
fn of(service: u64, volume: u64, backend: u64) -> Question {
    Question {
        service,
        volume,
        backend,
    }
}

/// The calls: the two readings and the record.
#[derive(Clone, Copy)]
enum Call {
    Share,
    Load,
    Both,
}

/// All calls, in the order in which turns take them.
const CALLS: [Call; 3] = [Share, Load, Both];

/// The call of a turn.
fn call_of(turn: u64) -> Call {
    CALLS[turn as usize % CALLS.len()]
}

/// Any call; the record, which shows both gauges, twice as often.
fn any_call(random: &mut Random) -> Call {
    *random.pick(&[Share, Load, Both, Both])
}

impl Question {
    /// Asks by one call.
    fn ask(self, records: &mut Records, sheet: &[u8], call: Call) {
        let Question {
            service,
            volume,
            backend,
        } = self;
        let numbers = format!("{service} {volume} {backend}");
        let header = match call {
            Share => format!("R {numbers} 1"),
            Load => format!("R {numbers} 2"),
            Both => format!("G {numbers}"),
        };
        records.add(&header, sheet);
    }

    /// Asks by every call.
    fn ask_all(self, records: &mut Records, sheet: &[u8]) {
        for call in CALLS {
            self.ask(records, sheet, call);
        }
    }
}

/// Adds all of them.
pub fn add_all(records: &mut Records) {
    let mut random = Random::new(10);
    sample(records);
    limits(records);
    refused(records);
    numbers_refused(records);
    every_k(records);
    every_count(records);
    every_backend(records);
    services(records);
    shadowed(records);
    counts(records, &mut random);
    packed(records, &mut random);
    any_rules(records, &mut random);
    absent(records, &mut random);
    spoilt(records, &mut random);
    long(records);
}

/// Each backend of the sample and some that hold nothing, with the volumes of
/// its sheet and the least and the greatest.
fn sample(records: &mut Records) {
    for (service, own) in [(1, 55), (2, 45)] {
        for backend in [1, 2, 3, 4, MOST_ID] {
            for volume in [0, own, MOST_VOLUME] {
                of(service, volume, backend).ask_all(records, SAMPLE.as_bytes());
            }
        }
    }
}

/// With 1 or 2 added, these would be a service or a backend of the sample if
/// their high bits were lost.
const OVER: [u64; 4] = [1 << 8, 1 << 16, 1 << 32, 1 << 63];

/// Each of the three numbers in turn, at its limits and beyond.
fn limits(records: &mut Records) {
    let ask = |records: &mut Records, question: Question| {
        question.ask_all(records, SAMPLE.as_bytes());
    };
    let cut = OVER.iter().map(|&over| over + 1);
    for service in [0, 3, 64, 65, u64::MAX].into_iter().chain(cut.clone()) {
        ask(records, of(service, 55, 2));
    }
    for volume in [2, 9_999, 10_001, 16_383, 65_535, u64::MAX]
        .into_iter()
        .chain(cut.clone())
    {
        ask(records, of(1, volume, 2));
    }
    for backend in [0, 32, 33, 9_998, 9_999, 10_000, 10_001, 65_535, u64::MAX]
        .into_iter()
        .chain(OVER)
        .chain(cut.map(|over| over + 1))
    {
        ask(records, of(1, 55, backend));
    }
}

/// Each refusal of a sheet, with a service that is there and one that isn't,
/// and with good and bad numbers beside it.
fn refused(records: &mut Records) {
    let many = "1 *0 1\n".repeat(32) + "1 * 1\n";
    let sheets = [
        "",
        "\n",
        "TABLE 5 1 0",
        "TABLE 5 1 0\n1 * 1",
        "TABL 5 1 0\n1 * 1\n",
        "TABLE 5 2 0\n1 * 1\n2 *\n",
        "TABLE 0 1 0\n1 * 1\n",
        "TABLE 13 1 0\n1 * 1\n",
        "TABLE 5 2049 0\n1 * 1\n",
        "TABLE 2 2 0\n1 *000 1\n1 * 1\n",
        "TABLE 5 1 0\n1 * 10000\n",
        "TABLE 5 2 0\n1 * 1\n65 * 1\n",
        &format!("TABLE 5 33 0\n{many}"),
        "TABLE 5 1 0\n",
        "TABLE 5 2 0\n1 * 1\n1 * 1\n",
        "TABLE 5 1 0\n1 *0 1\n",
        "TABLE 5 2 0\n1 * 1\n",
        "SHEET 5 2 5\nSERVICE 1 1:100\n",
    ];
    let mut turn = 0;
    for sheet in sheets {
        for (service, volume, backend) in [
            (1, 1, 1),
            (9, 1, 1),
            (1, 10_001, 1),
            (1, 1, 10_000),
            (9, 10_001, 1),
            (9, 1, 0),
            (1, u64::MAX, 0),
            (u64::MAX, u64::MAX, u64::MAX),
        ] {
            of(service, volume, backend).ask(records, sheet.as_bytes(), call_of(turn));
            turn += 1;
        }
    }
}

/// Good and bad services, volumes and backends, each with each.
fn numbers_refused(records: &mut Records) {
    let sheet = b"TABLE 3 2 0\n2 *1 4\n2 * 9\n";
    for service in [2, 1] {
        for volume in [MOST_VOLUME, MOST_VOLUME + 1, u64::MAX] {
            for backend in [4, 0, 10_000, u64::MAX] {
                of(service, volume, backend).ask_all(records, sheet);
            }
        }
    }
}

/// For each k the whole tree, one suffix, all but one, and none.
fn every_k(records: &mut Records) {
    for k in 1..=12 {
        let bits = &"011010111001"[..k];
        let whole = format!("TABLE {k} 1 0\n64 * 9999\n");
        of(64, MOST_VOLUME, 9_999).ask_all(records, whole.as_bytes());
        of(64, 1, 9_999).ask(records, whole.as_bytes(), Both);
        of(64, MOST_VOLUME, 9_998).ask(records, whole.as_bytes(), Both);
        let one = format!("TABLE {k} 2 0\n3 *{bits} 6\n3 * 5\n");
        for volume in [1, 9_999] {
            for backend in [5, 6] {
                of(3, volume, backend).ask(records, one.as_bytes(), Both);
            }
        }
        of(3, 1, 6).ask(records, one.as_bytes(), Load);
        of(3, 9_999, 5).ask(records, one.as_bytes(), Load);
        of(3, MOST_VOLUME, 7).ask(records, one.as_bytes(), Both);
    }
}

/// A table of one service in which backend 1 holds so many of the 2^k suffixes:
/// a rule for each bit of the count, from place 0 on, the largest first. Backend
/// 2 holds the others.
fn holding(k: u8, count: u16) -> Table {
    let line = |suffix, backend| RuleLine {
        service: 1,
        rule: Rule { suffix, backend },
    };
    let mut lines = vec![line(Suffix::STAR, 2)];
    if count == 1 << k {
        lines[0].rule.backend = 1;
        return Table { k, total: 0, lines };
    }
    let mut place = 0;
    for bit in (0..k).rev().filter(|&bit| count >> bit & 1 == 1) {
        lines.push(line(Suffix::at_place(k - bit, place >> bit), 1));
        place += 1 << bit;
    }
    lines.reverse();
    Table { k, total: 0, lines }
}

/// Every number of suffixes that a backend may hold, for k up to 4.
fn every_count(records: &mut Records) {
    for k in 1..=4 {
        for count in 0..=1 << k {
            let sheet = text_of(&holding(k, count));
            of(1, 55, 1).ask(records, &sheet, Both);
            of(1, 9_999, 2).ask(records, &sheet, Both);
        }
    }
}

/// Every backend of a service where they hold 2, 2, 4, 8, .. of 4,096 suffixes,
/// and of one where each holds 1 of 32, or 4 of 128.
fn every_backend(records: &mut Records) {
    let stairs: String = (1..12)
        .map(|i| format!("1 *{} {i}\n", "0".repeat(12 - i)))
        .collect();
    let sheet = format!("TABLE 12 12 0\n{stairs}1 * 12\n");
    for backend in 0..=14 {
        of(1, 10_000 - backend, backend).ask(records, sheet.as_bytes(), Both);
        of(1, 777, backend).ask(records, sheet.as_bytes(), call_of(backend));
    }
    for (k, volume, apart) in [(5, 10_000, 1), (7, 3, 312)] {
        let rule = |i| format!("1 *{i:05b} {}\n", apart * i);
        let rules: String = (1..32).map(rule).collect();
        let sheet = format!("TABLE {k} 32 0\n{rules}1 * {}\n", apart * 32);
        for place in 0..=33 {
            of(1, volume, apart * place).ask(records, sheet.as_bytes(), call_of(place));
        }
    }
}

/// All 64 services, each with another backend; every second one; and 2,048
/// lines of 64 services.
fn services(records: &mut Records) {
    let line = |service: u64| format!("{service} * {}\n", service % 32 + 1);
    let all: String = (1..=64).map(line).collect();
    let odd: String = (1..=64).step_by(2).map(line).collect();
    for service in [0, 1, 2, 31, 32, 33, 63, 64, 65] {
        let backend = service % 32 + 1;
        for (n, lines) in [(64, &all), (32, &odd)] {
            let sheet = format!("TABLE 6 {n} 0\n{lines}");
            of(service, service, backend).ask(records, sheet.as_bytes(), Load);
            of(service, 10_000, backend).ask(records, sheet.as_bytes(), Both);
        }
    }
    let full: String = (1..=64)
        .map(|service| {
            let rule = format!("{service} *101010101010 9999\n");
            rule.repeat(31) + &format!("{service} * {}\n", service % 32 + 1)
        })
        .collect();
    let sheet = format!("TABLE 12 2048 {MOST_TOTAL}\n{full}");
    of(64, 9_999, 1).ask(records, sheet.as_bytes(), Both);
}

/// Lines that no suffix is left for, equal suffixes, and suffixes of which
/// other lines took a part; every backend of them.
fn shadowed(records: &mut Records) {
    for (k, lines) in [
        (1, "7 *1 2,7 *0 1,7 *1 3,7 * 4"),
        (6, "7 *1 2,7 *0 1,7 *1 3,7 * 4"),
        (3, "7 *010 1,7 *010 2,7 *010 3,7 * 4"),
        (4, "7 *1010 1,7 *010 2,7 *10 3,7 *0 4,7 * 1"),
        (4, "7 *0101 1,7 *1101 2,7 *101 3,7 *01 1,7 * 4"),
        (12, "7 *000000000001 1,7 *1 1,7 *1 2,7 *1 3,7 *0 3,7 * 4"),
        (9, "6 * 4,7 *11 3,7 *01 3,7 *0 3,7 * 3,8 * 1"),
    ] {
        let n = lines.split(',').count();
        let sheet = format!("TABLE {k} {n} 5\n{}\n", lines.replace(',', "\n"));
        for backend in 1..=5 {
            of(7, 101, backend).ask(records, sheet.as_bytes(), Both);
            of(7, 9_001, backend).ask(records, sheet.as_bytes(), call_of(backend));
        }
    }
}

/// A volume within its limits: any, or one at a limit or a power of two.
fn some_volume(random: &mut Random) -> u64 {
    match random.below(4) {
        0 => *random.pick(&[0, 1, 2, 3, 4_095, 4_096, 8_191, 8_192, 9_999, MOST_VOLUME]),
        _ => random.below(MOST_VOLUME + 1),
    }
}

/// Any number of suffixes, for k from 5 on.
fn counts(records: &mut Records, random: &mut Random) {
    for turn in 0..144 {
        let k = 5 + turn % 8;
        let count = match random.below(5) {
            0 => 1 << random.below(k),
            1 => (1 << k) - (1 << random.below(k)),
            _ => random.below((1 << k) + 1),
        };
        let sheet = text_of(&holding(k as u8, count as u16));
        let question = of(1, some_volume(random), random.within(1, 2));
        question.ask(records, &sheet, any_call(random));
    }
}

/// One of the backends that a table names, or now and then any.
fn some_backend(random: &mut Random, table: &Table) -> u64 {
    match random.below(8) {
        0 => random.within(1, MOST_ID),
        _ => u64::from(random.pick(&table.lines).rule.backend),
    }
}

/// Any call about a service of the table.
fn ask_about(records: &mut Records, random: &mut Random, table: &Table) {
    let service = u64::from(random.pick(&table.lines).service);
    let backend = some_backend(random, table);
    let question = of(service, some_volume(random), backend);
    question.ask(records, &text_of(table), any_call(random));
}

/// A table packed from an order.
fn packed_table(random: &mut Random) -> Table {
    let shape = OrderShape {
        services: random.within(1, 3),
        backends: random.within(2, 6),
        bits: 12,
    };
    pack_checked(&order(random, &shape)).table
}

/// Tables packed from orders.
fn packed(records: &mut Records, random: &mut Random) {
    for _ in 0..140 {
        let table = packed_table(random);
        ask_about(records, random, &table);
    }
}

/// Tables of any suffixes, of all k.
fn any_rules(records: &mut Records, random: &mut Random) {
    for turn in 0..132 {
        let table = rule_table(random, 1 + turn % 12, 2);
        ask_about(records, random, &table);
    }
}

/// Services that may not be there, with good and bad numbers beside them.
fn absent(records: &mut Records, random: &mut Random) {
    for turn in 0..45 {
        let k = random.within(1, 12);
        let table = rule_table(random, k, 2);
        let service = match random.below(3) {
            0 => random.any_size(),
            _ => random.within(0, 6),
        };
        let (volume, backend) = some_numbers(random, &table);
        of(service, volume, backend).ask(records, &text_of(&table), call_of(turn));
    }
}

/// A volume and a backend, now and then out of their limits.
fn some_numbers(random: &mut Random, table: &Table) -> (u64, u64) {
    let volume = match random.below(4) {
        0 => random.any_size(),
        _ => some_volume(random),
    };
    let backend = match random.below(4) {
        0 => random.any_size(),
        _ => some_backend(random, table),
    };
    (volume, backend)
}

/// Sheets spoilt at random.
fn spoilt(records: &mut Records, random: &mut Random) {
    for turn in 0..150 {
        let table = match random.below(2) {
            0 => packed_table(random),
            _ => {
                let k = random.within(1, 12);
                rule_table(random, k, 2)
            }
        };
        let service = some_service(random, &table);
        let (volume, backend) = some_numbers(random, &table);
        let sheet = spoil(random, &text_of(&table));
        of(service, volume, backend).ask(records, &sheet, call_of(turn));
    }
}

/// A text over its limit comes before everything else.
fn long(records: &mut Records) {
    let text = [b' '; 65_537];
    of(1, 1, 1).ask(records, &text, Both);
    of(65, u64::MAX, 0).ask(records, &text, Share);
}

#[cfg(test)]
mod tests {
    use super::*;
    use crate::vectors;
    use std::collections::BTreeMap;

    fn all() -> Records {
        let mut records = Records::default();
        records.begin("gauges");
        add_all(&mut records);
        records
    }

    /// The answer to a question about a sheet.
    fn said(header: &str, sheet: &str) -> String {
        let mut records = Records::default();
        records.begin("gauges");
        records.add(header, sheet.as_bytes());
        vectors::answer(records.bytes()).unwrap_or_else(|error| error)
    }

    #[test]
    fn answers_show_the_bits() {
        let (half, load) = (0.5f64.to_bits(), 27.5f64.to_bits());
        assert_eq!(said("R 1 55 2 1", SAMPLE), format!("share {half}\n"));
        assert_eq!(said("R 1 55 2 2", SAMPLE), format!("load {load}\n"));
        let both = format!("gauges {half} {load}\n");
        assert_eq!(said("G 1 55 2", SAMPLE), both);
        assert_eq!(said("G 1 55 1", SAMPLE), "gauges 0 0\n");
        assert_eq!(said("R 3 55 2 1", SAMPLE), "absent\n");
        assert_eq!(said("G 3 55 2", SAMPLE), "REFUSED 8 0\n");
        assert_eq!(said("R 1 10001 2 1", SAMPLE), "REFUSED 2 0\n");
        assert_eq!(said("R 9 10001 0 2", ""), "REFUSED 1 1\n");
        for header in ["R 1 55 2 0", "R 1 55 2 3", "R 1 55 2", "G 1 55 2 1", "H 1"] {
            assert_eq!(said(header, SAMPLE), "record 1 is of no kind", "{header}");
        }
    }

    #[test]
    fn tables_of_any_count_keep_the_order_of_the_rule_sheet() {
        for k in 1..=12 {
            for count in (0..=1 << k).step_by(1 + (1 << k) / 300) {
                let sheet = text_of(&holding(k, count));
                let found = gauges(&sheet, 1, 1, 1).unwrap();
                let share = f64::from(count) / f64::from(1 << k);
                assert_eq!((found.share, found.load), (share, share));
            }
        }
    }

    /// How often the answers begin so: the word, and the number of a refusal.
    fn openings(records: &Records) -> BTreeMap<String, usize> {
        let mut openings = BTreeMap::new();
        for line in vectors::answer(records.bytes()).unwrap().lines() {
            let words: Vec<&str> = line.split(' ').collect();
            let opening = match words[0] {
                "REFUSED" => words[..2].join(" "),
                word => word.to_string(),
            };
            *openings.entry(opening).or_insert(0) += 1;
        }
        openings
    }

    #[test]
    fn vectors_of_every_kind_and_not_too_many_bytes() {
        let records = all();
        assert!(
            (900..=1_500).contains(&records.count()),
            "{}",
            records.count()
        );
        assert!(records.bytes().len() < 400_000, "{}", records.bytes().len());
        let openings = openings(&records);
        for opening in ["share", "load", "gauges"] {
            assert!(openings[opening] > 150, "{openings:?}");
        }
        for number in [1, 2, 4, 5, 8, 9, 10, 11] {
            assert!(
                openings.contains_key(&format!("REFUSED {number}")),
                "{number}"
            );
        }
        assert!(openings["absent"] > 60, "{openings:?}");
        assert_eq!(openings.len(), 12, "{openings:?}");
    }
}
