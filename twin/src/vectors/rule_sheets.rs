//! Vectors `U`, `L` and `H`: texts of rule sheets, lookup and churn.

use super::loaded::{come_in, retire};
use super::records::Records;
use super::shapes::{order, renamed, rule_table, OrderShape, FORMER_TOTAL};
use super::spoil::spoil;
use crate::limits::MOST_TOTAL;
use crate::packing::pack_checked;
use crate::random::Random;
use crate::rule_sheet::text_of;
use crate::table::Table;

/// Adds all of them.
pub fn add_all(records: &mut Records) {
    let mut random = Random::new(5);
    listed(records);
    orders_and_counts(records);
    at_limits(records);
    read_at_random(records, &mut random);
    lookups_listed(records);
    lookups(records, &mut random);
    churns_listed(records);
    churns(records, &mut random);
    churns_by_id(records, &mut random);
}

fn add(records: &mut Records, text: &str) {
    records.add("U", text.as_bytes());
}

pub(super) const SAMPLE: &str = "TABLE 5 5 29333392000\n1 *0 2\n1 * 3\n2 *00 2\n2 *0 1\n2 * 3\n";

/// The sample cut after every byte, and each field of a sheet in turn.
fn listed(records: &mut Records) {
    for length in 0..=SAMPLE.len() {
        add(records, &SAMPLE[..length]);
    }
    let numbers =
        "0 1 2 3 12 13 32 33 64 65 2048 2049 00 01 -1 +1 1.0 x 18446744073709551617 4294967297 \
        9999 10000 10001 65537 1:1 :1 * *0 *1 *01 *000 *2 ** 0* *00000 *000000";
    let totals = [FORMER_TOTAL, MOST_TOTAL]
        .map(|total| format!("{} {total} {}", total - 1, total + 1))
        .join(" ");
    let numbers = numbers.split(' ').chain(totals.split(' '));
    for number in numbers.chain([""]) {
        add(records, &format!("TABLE {number} 1 0\n1 * 1\n"));
        add(records, &format!("TABLE 5 {number} 0\n1 * 1\n"));
        add(records, &format!("TABLE 5 1 {number}\n1 * 1\n"));
        add(records, &format!("TABLE 5 2 0\n{number} *0 1\n1 * 1\n"));
        add(records, &format!("TABLE 5 2 0\n1 {number} 1\n1 * 1\n"));
        add(records, &format!("TABLE 5 2 0\n1 *0 {number}\n1 * 1\n"));
        add(records, &format!("TABLE 5 2 0\n1 *0 1\n1 {number} 1\n"));
    }
    for line in [
        "", " ", "1", "1 ", "1 *", "1 * ", "1 * 1 ", "1 * 1 1", " 1 * 1", "1  * 1", "1 * 1\r",
        "1 *\t1",
    ] {
        add(records, &format!("TABLE 5 1 0\n{line}\n"));
        add(records, &format!("TABLE 5 2 0\n1 * 1\n{line}\n"));
        add(records, &format!("TABLE 5 2 0\n1 * 1\n2{line}"));
    }
}

/// Lines in and out of order, between commas.
pub(super) const LINES: [&str; 23] = [
    "1 * 1",
    "2 * 1",
    "64 * 1",
    "1 *0 1",
    "1 *0 1,1 * 1",
    "1 * 1,1 *0 1",
    "1 * 1,1 * 2",
    "1 *0 1,1 *00 1,1 * 1",
    "1 *00 1,1 *0 1,1 * 1",
    "1 *00 1,1 *00 1,1 * 1",
    "1 *00 1,1 *01 1,1 * 1",
    "1 *0 1,2 * 1",
    "1 *0 1,2 *0 1,2 * 1",
    "1 * 1,2 *0 1",
    "1 * 1,3 * 1",
    "3 * 1,1 * 1",
    "1 * 1,2 * 1,1 * 1",
    "1 * 1,2 * 1,2 * 1",
    "2 *0 1,1 * 1,2 * 1",
    "1 *0 1,1 * 1,1 *0 1",
    "5 *00000 9999,5 *1111 1,5 * 7,9 *1 1,9 * 1,64 * 9999",
    "1 *0 1,1 *1 1",
    "1 *1 1,1 *0 1,1 * 1",
];

/// Each of these, with the right and a wrong number of rules.
fn orders_and_counts(records: &mut Records) {
    for lines in LINES {
        let count = lines.split(',').count();
        let text = lines.replace(',', "\n");
        for n in [count - 1, count, count + 1, 2_048] {
            add(records, &format!("TABLE 5 {n} 12\n{text}\n"));
            add(records, &format!("TABLE 1 {n} 12\n{text}\n"));
        }
    }
}

/// 32 and 33 rules, 64 services, 2,048 lines, 65,536 bytes and more.
fn at_limits(records: &mut Records) {
    for before in [0, 30, 31, 32, 33] {
        let rules = "1 *0 2\n".repeat(before);
        for n in [before, before + 1, before + 2] {
            add(records, &format!("TABLE 5 {n} 0\n{rules}1 * 1\n"));
            add(records, &format!("TABLE 5 {n} 0\n{rules}1 * 1\n1 * 1\n"));
            add(records, &format!("TABLE 5 {n} 0\n{rules}2 * 1\n"));
            add(records, &format!("TABLE 5 {n} 0\n{rules}1 *00 1\n"));
            add(records, &format!("TABLE 5 {n} 0\n{rules}"));
        }
    }
    let again = "1 *0 2\n".repeat(31) + "1 * 1\n2 * 1\n1 * 1\n";
    add(records, &format!("TABLE 5 34 0\n{again}"));
    let mut lines = String::new();
    for service in 1..=64 {
        lines += &format!("{service} *101010101010 9999\n").repeat(31);
        lines += &format!("{service} * 9999\n");
    }
    add(records, &format!("TABLE 12 2048 {MOST_TOTAL}\n{lines}"));
    add(records, &format!("TABLE 12 2047 {MOST_TOTAL}\n{lines}"));
    let over = MOST_TOTAL + 1;
    add(records, &format!("TABLE 12 2048 {over}\n{lines}"));
    add(records, &format!("TABLE 12 2048 0\n{lines}65 * 1\n"));
    add(records, &format!("TABLE 12 2048 0\n{lines}64 * 1\n"));
    let head = "TABLE 5 1 0\n1 * 1\n";
    for length in [65_535, 65_536, 65_537] {
        let rest = length - head.len();
        add(records, &format!("{head}2 * {}\n", "1".repeat(rest - 5)));
    }
    add(
        records,
        &format!("{head}{}", "2".repeat(65_536 - head.len())),
    );
    add(records, &"\n".repeat(65_537));
}

/// A table: packed from an order, or of any suffixes; most are small.
pub(super) fn table(random: &mut Random) -> Table {
    if random.once_in(2) {
        let k = random.within(1, 12);
        let services = *random.pick(&[1, 2, 3, 5]);
        return rule_table(random, k, services);
    }
    let shape = OrderShape {
        services: *random.pick(&[1, 2, 3, 5]),
        backends: 5,
        bits: 12,
    };
    pack_checked(&order(random, &shape)).table
}

/// Rule sheets, most of them spoilt.
fn read_at_random(records: &mut Records, random: &mut Random) {
    for turn in 0..700 {
        let mut table = table(random);
        if random.once_in(8) {
            let (a, b) = (random.bits() as usize, random.bits() as usize);
            let count = table.lines.len();
            table.lines.swap(a % count, b % count);
        }
        let text = text_of(&table);
        match turn % 3 {
            0 => records.add("U", &text),
            _ => records.add("U", &spoil(random, &text)),
        }
    }
}

/// A service of the table, or now and then one that isn't there.
pub(super) fn some_service(random: &mut Random, table: &Table) -> u64 {
    match random.below(12) {
        0 => random.below(67),
        1 => *random.pick(&[0, 1, 64, 65, 256, 257, u64::MAX]),
        _ => u64::from(random.pick(&table.lines).service),
    }
}

/// The sample with every service near it and many addresses, and each refusal
/// before that of an unknown service.
fn lookups_listed(records: &mut Records) {
    for service in [0, 1, 2, 3, 64, 65, 1 << 32, u64::MAX] {
        for address in [0, 1, 2, 3, 4, 6, 31, 32, 1 << 31, u64::from(u32::MAX)] {
            records.add(&format!("L {service} {address}"), SAMPLE.as_bytes());
        }
        let long = " ".repeat(if service == 3 { 65_537 } else { 0 });
        for text in [
            &long,
            "\n",
            "TABLE 5 1 0\n",
            "TABLE 5 2 0\n1 * 1\n",
            "TABLE 5 1 0\n1 *0 1\n",
        ] {
            records.add(&format!("L {service} 0"), text.as_bytes());
        }
    }
}

/// Lookups of any address, and of addresses next to the suffixes of the table.
fn lookups(records: &mut Records, random: &mut Random) {
    for turn in 0..450 {
        let table = table(random);
        let service = some_service(random, &table);
        let near = u64::from(random.pick(&table.lines).rule.suffix.value());
        let address = match random.below(5) {
            0 => random.below(1 << 32),
            1 => *random.pick(&[0, 1, u64::from(u32::MAX), 1 << 31, 4_095, 4_096]),
            2 => near,
            _ => (random.bits() << 12 & 0xffff_f000) | near,
        };
        let mut text = text_of(&table);
        if turn % 8 == 0 {
            text = spoil(random, &text);
        }
        records.add(&format!("L {service} {address}"), &text);
    }
}

fn add_churn(records: &mut Records, service: u64, first: &[u8], second: &[u8]) {
    let header = format!("H {service} {}", first.len());
    records.add(&header, &[first, second].concat());
}

/// Each refusal of churn with the sheet it is about, and one before another.
fn churns_listed(records: &mut Records) {
    let long = " ".repeat(65_537);
    let sheets = [
        "TABLE 5 1 0\n1 * 1\n",
        "TABLE 5 2 0\n1 * 2\n2 * 1\n",
        "TABLE 4 1 0\n1 * 1\n",
        "TABLE 4 1 0\n2 * 1\n",
        SAMPLE,
        "",
        "TABLE 5 1 0\n",
        "TABLE 5 2 0\n1 * 1\n",
        "TABLE 5 1 0\n1 *0 1\n",
        "TABLE 5 1 0\n1 * 10000\n",
    ];
    for first in sheets {
        for second in sheets {
            for service in [1, 2, 3] {
                add_churn(records, service, first.as_bytes(), second.as_bytes());
            }
        }
    }
    add_churn(records, 1, long.as_bytes(), b"");
    add_churn(records, 1, sheets[0].as_bytes(), long.as_bytes());
    add_churn(records, 1, b"", long.as_bytes());
}

/// Churn between tables, most of them of like k.
fn churns(records: &mut Records, random: &mut Random) {
    for turn in 0..300 {
        let first = table(random);
        let mut second = match random.below(8) {
            0 => table(random),
            _ => rule_table(random, u64::from(first.k), 4),
        };
        if random.once_in(4) {
            second = first.clone();
            let count = second.lines.len() as u64;
            second.lines[random.below(count) as usize].rule.backend = random.within(1, 4) as u16;
        }
        let service = some_service(random, &first);
        let (mut old, mut new) = (text_of(&first), text_of(&second));
        if turn % 10 == 0 {
            old = spoil(random, &old);
        }
        if turn % 10 < 2 {
            new = spoil(random, &new);
        }
        add_churn(records, service, &old, &new);
    }
}

/// Tables packed before and after backends of a service were retired or came in,
/// so that places move and ids stay; and tables of the same places under other
/// ids.
fn churns_by_id(records: &mut Records, random: &mut Random) {
    for turn in 0..90 {
        let shape = OrderShape {
            services: random.within(1, 2),
            backends: *random.pick(&[3, 5, 9, 32]),
            bits: 12,
        };
        let mut order = order(random, &shape);
        order.capacity = *random.pick(&[9, 64]);
        let old = pack_checked(&order).table;
        for service in &mut order.services {
            for _ in 0..random.within(1, 2) {
                match turn % 3 {
                    0 => come_in(random, service),
                    _ => retire(random, service),
                }
            }
        }
        let new = pack_checked(&order).table;
        add_churn(records, 1, &text_of(&old), &text_of(&new));
        if turn % 2 == 0 {
            let other = renamed(random, &old);
            add_churn(records, 1, &text_of(&old), &text_of(&other));
        }
    }
    for (old, new) in ID_PAIRS {
        let [old, new] = [old, new].map(|lines| {
            let n = lines.split(',').count();
            format!("TABLE 5 {n} 0\n{}\n", lines.replace(',', "\n"))
        });
        add_churn(records, 1, old.as_bytes(), new.as_bytes());
        add_churn(records, 1, new.as_bytes(), old.as_bytes());
    }
}

/// Lines between commas, of which only ids differ, or only places.
const ID_PAIRS: [(&str, &str); 8] = [
    ("1 * 1", "1 * 9999"),
    ("1 * 9999", "1 * 9999"),
    ("1 *00 1,1 *0 2,1 * 3", "1 *0 2,1 * 3"),
    ("1 *00 10,1 *0 20,1 * 30", "1 *00 1,1 *0 2,1 * 3"),
    ("1 *00 1,1 *0 2,1 * 3", "1 *00 2,1 *0 3,1 * 4"),
    ("1 *00 7,1 *0 8,1 * 9", "1 *00 8,1 *0 7,1 * 9"),
    ("1 *0 1,1 * 257", "1 *0 257,1 * 1"),
    ("1 *0 255,1 * 256", "1 *0 511,1 * 512"),
];
