//! Vectors `C`: the count by first match over a rule sheet's lines, for one
//! backend.

use super::records::Records;
use super::rule_sheets::{some_service, table, LINES, SAMPLE};
use super::shapes::rule_table;
use super::spoil::spoil;
use crate::limits::{MOST_ID, MOST_TOTAL};
use crate::random::Random;
use crate::rule_sheet::text_of;
use crate::table::Table;

/// Adds all of them.
pub fn add_all(records: &mut Records) {
    let mut random = Random::new(8);
    listed(records);
    refused(records);
    at_limits(records);
    good(records, &mut random);
    unknown(records, &mut random);
    spoilt(records, &mut random);
}

fn add(records: &mut Records, service: u64, backend: u64, text: &[u8]) {
    records.add(&format!("C {service} {backend}"), text);
}

/// Ids at their limits and beyond, and one that holds nothing most often.
const IDS: [u64; 7] = [1, MOST_ID, MOST_ID + 1, 0, 4_321, 2, u64::MAX];

/// The sample with every service near it, and lines in and out of order.
fn listed(records: &mut Records) {
    for service in [1, 2, 0, 3, 63, 64, 65, 256, 257, 1 << 32, u64::MAX] {
        for backend in [0, 2, 3, 9_999, 10_000] {
            add(records, service, backend, SAMPLE.as_bytes());
        }
    }
    for lines in LINES {
        let (n, text) = (lines.split(',').count(), lines.replace(',', "\n"));
        let sheet = format!("TABLE 5 {n} 12\n{text}\n");
        add(records, 1, 1, sheet.as_bytes());
    }
}

/// Each refusal of a sheet comes before an unknown service, and that one before
/// an id out of its limits.
fn refused(records: &mut Records) {
    let many = "1 *0 1\n".repeat(32) + "1 * 1\n";
    for text in [
        "",
        "TABLE 5 1 0",
        "TABL 5 1 0\n1 * 1\n",
        "TABLE 5 2 0\n1 * 1\n2 *\n",
        "TABLE 13 1 0\n1 * 1\n",
        "TABLE 2 2 0\n1 *000 1\n1 * 1\n",
        "TABLE 5 1 0\n1 * 10000\n",
        &format!("TABLE 5 33 0\n{many}"),
        "TABLE 5 1 0\n",
        "TABLE 5 2 0\n1 * 1\n1 * 1\n",
        "TABLE 5 1 0\n1 *0 1\n",
        "TABLE 5 2 0\n1 * 1\n",
    ] {
        for (service, backend) in [(1, 1), (1, 10_000), (2, 1), (0, 0)] {
            add(records, service, backend, text.as_bytes());
        }
    }
    for (service, backend) in [(1, 1), (65, 0)] {
        add(records, service, backend, &[b'\n'; 65_537]);
    }
}

/// All 2^k suffixes to one backend, each to a backend of its own as far as there
/// are any, rules that no suffix is left for, and 64 services of 32 rules.
fn at_limits(records: &mut Records) {
    for k in 1..=12 {
        let id = if k % 2 == 0 { 1 } else { MOST_ID };
        let sheet = format!("TABLE {k} 1 0\n64 * {id}\n");
        add(records, 64, id, sheet.as_bytes());
        let shadowed = format!("TABLE {k} 4 0\n7 *1 20\n7 *0 1\n7 *1 3\n7 * 4\n");
        add(records, 7, [20, 1, 3, 4][k % 4], shadowed.as_bytes());
    }
    let rules: String = (1..32)
        .map(|i| format!("1 *{i:05b} {}\n", 312 * i))
        .collect();
    for k in [5, 6, 12] {
        let sheet = format!("TABLE {k} 32 0\n{rules}1 * 32\n");
        for backend in [32, 312, 313, 9_672] {
            add(records, 1, backend, sheet.as_bytes());
        }
    }
    let full: String = (1..=64)
        .map(|service| {
            let rule = format!("{service} *101010101010 9999\n");
            rule.repeat(31) + &format!("{service} * {}\n", service % 32 + 1)
        })
        .collect();
    let sheet = format!("TABLE 12 2048 {MOST_TOTAL}\n{full}");
    for (service, backend) in [(1, 9_999), (31, 32), (64, 1)] {
        add(records, service, backend, sheet.as_bytes());
    }
}

/// A backend of the table, or now and then any other.
fn some_backend(random: &mut Random, table: &Table) -> u64 {
    match random.below(5) {
        0 => *random.pick(&IDS),
        _ => u64::from(random.pick(&table.lines).rule.backend),
    }
}

/// Sheets of all k that keep the rules.
fn good(records: &mut Records, random: &mut Random) {
    for turn in 0..96 {
        let table = match turn % 3 {
            0 => table(random),
            _ => rule_table(random, 1 + turn % 12, 3),
        };
        let line = random.pick(&table.lines);
        let service = u64::from(line.service);
        let backend = match turn % 4 {
            0 => some_backend(random, &table),
            _ => u64::from(random.pick(table.lines_of(service)).rule.backend),
        };
        add(records, service, backend, &text_of(&table));
    }
}

/// Services that may not be there, with good and bad ids.
fn unknown(records: &mut Records, random: &mut Random) {
    for turn in 0..24 {
        let table = table(random);
        let service = match random.below(2) {
            0 => random.any_size(),
            _ => some_service(random, &table),
        };
        let backend = IDS[turn % IDS.len()];
        add(records, service, backend, &text_of(&table));
    }
}

/// Sheets spoilt at random.
fn spoilt(records: &mut Records, random: &mut Random) {
    for _ in 0..40 {
        let table = table(random);
        let service = some_service(random, &table);
        let text = spoil(random, &text_of(&table));
        add(records, service, some_backend(random, &table), &text);
    }
}
