//! Vectors `R`: texts of percentage sheets.

use super::records::Records;
use super::shapes::{largest_total, order, percentage_text, sheet_text, OrderShape, FOURTH};
use super::spoil::spoil;
use crate::packing::Order;
use crate::random::Random;

/// Adds all of them.
pub fn add_all(records: &mut Records) {
    let mut random = Random::new(4);
    listed(records);
    fields(records);
    backends(records);
    at_limits(records, &mut random);
    good(records, &mut random);
    spoilt(records, &mut random);
    unbalanced(records, &mut random);
    buffers(records, &mut random);
}

/// Vectors `B`: sheets for a buffer of so many bytes, around what they need.
fn buffers(records: &mut Records, random: &mut Random) {
    for room in 0..=SAMPLE.len() {
        records.add(&format!("B {room}"), SAMPLE.as_bytes());
    }
    for text in fine_cases() {
        records.add("B 70", text.as_bytes());
    }
    for _ in 0..200 {
        let order = small(random);
        let text = sheet_text(random, &order);
        let text = if random.once_in(4) {
            spoil(random, &text)
        } else {
            text
        };
        let room = random.below(200);
        records.add(&format!("B {room}"), &text);
    }
}

fn add(records: &mut Records, text: &str) {
    records.add("R", text.as_bytes());
}

pub(super) const SAMPLE: &str =
    "SHEET 5 2 5\nSERVICE 55 1:16.6667 2:33.3333 3:50\nSERVICE 45 1:25 2:25 3:50\n";

/// The sample, cut after every byte and with every capacity; the P cases.
fn listed(records: &mut Records) {
    for length in 0..=SAMPLE.len() {
        add(records, &SAMPLE[..length]);
    }
    for capacity in 0..=9 {
        add(
            records,
            &SAMPLE.replacen("2 5\n", &format!("2 {capacity}\n"), 1),
        );
    }
    for text in cases().into_iter().chain(fine_cases()) {
        add(records, &text);
    }
    wrong_forms(records);
}

/// P1 to P6 and P9 to P12: k and tolerance, and the weights.
const CASES: [(&str, &str); 10] = [
    ("5 2", "1:16.6667 2:33.3333 3:50"),
    ("5 0", "1:16.6667 2:33.3333 3:50"),
    ("5 0", "1:25 2:25 3:50"),
    ("1 0", "1:100"),
    ("1 0", "1:50 2:50"),
    ("1 0", "1:33.3334 2:33.3333 3:33.3333"),
    ("1 0", "1:18.4.2"),
    ("1 0", "1:100.0000"),
    ("1 0", "1:100.0001"),
    ("1 0", "1:018.4"),
];

/// The sheets of the P cases.
pub(super) fn cases() -> [String; 10] {
    CASES.map(|(head, weights)| format!("SHEET {head} 32\nSERVICE 1 {weights}\n"))
}

/// Percentages of five decimals and more: the cases of request 07, sums that miss
/// the whole by a unit and by the last of four decimals, and weights whose rules
/// aren't those of the nearest ones of four decimals.
const FINE_CASES: [(&str, &str); 24] = [
    ("1 0", "1:18.40000 2:81.6"),
    ("1 0", "1:18.4000000 2:81.6"),
    ("1 18.40000", "1:50 2:50"),
    ("1 18.4000000", "1:50 2:50"),
    ("1 0", "1:100.000000"),
    ("1 0", "1:100.0000000"),
    ("1 0", "1:100.000001"),
    ("1 100.000000", "1:50 2:50"),
    ("1 100.000001", "1:50 2:50"),
    ("5 1.041667", "1:16.666667 2:33.333333 3:50"),
    ("5 1.041666", "1:16.666667 2:33.333333 3:50"),
    ("5 1.0417", "1:16.666667 2:33.333333 3:50"),
    ("12 0", "1:16.66667 2:33.33333 3:50.00000"),
    ("1 0", "1:33.333333 2:33.333334 3:33.333333"),
    ("2 0", "1:24.999999 2:25.000001 3:25 4:25"),
    ("2 0", "1:25 2:25 3:25 4:25"),
    ("2 0.000001", "1:24.999999 2:25.000001 3:25 4:25"),
    ("12 0", "1:0.000001 2:99.999999"),
    ("1 0", "1:50 2:49.999999"),
    ("1 0", "1:50 2:49.9999"),
    ("1 0", "1:50 2:50.000001"),
    ("1 0", "1:50.0001 2:50"),
    ("1 0", "1:50.0000001 2:50"),
    ("1 0", "1:0.5 2:0.5"),
];

/// Their sheets.
pub(super) fn fine_cases() -> [String; 24] {
    FINE_CASES.map(|(head, weights)| format!("SHEET {head} 32\nSERVICE 9 {weights}\n"))
}

/// Lines with a wrong keyword, LF or number of fields.
fn wrong_forms(records: &mut Records) {
    for text in [
        "\n",
        " \n",
        "SHEET\n",
        "SHEET 5 2 5\n\n",
        "SHEET 5 2 5\n ",
        "SHEET 5 2 5\r\nSERVICE 1 1:100\r\n",
        "SHEET 5 2 5\nSERVICE 1 1:100\n\n",
        "SHEET 5 2 5\nSERVICE 1 1:100\nSERVICE",
        "SHEET  5 2 5\nSERVICE 1 1:100\n",
        "SHEET 5 2 5\nSERVICE 1\n",
        "SHEET 5 2 5\nSERVICE 1 \n",
        "SHEET 5 2 5\nSERVICE\n",
        "SHEET 5 2 5\nSERVICE \n",
        "SHEET 5 2 5\n SERVICE 1 1:100\n",
        "SHEET 5 2 5\nSERVICE  1 1:100\n",
        "SHEET 5 2 5\nSERVICE 1  1:100\n",
        "SHEET 5 2 5\nSERVICE 1 1:100 \n",
        "SHEET 5 2 5 \nSERVICE 1 1:100\n",
        "sheet 5 2 5\nSERVICE 1 1:100\n",
        "SHEET 5 2 5\nSHEET 5 2 5\n",
        "SERVICE 1 1:100\n",
        "TABLE 5 1 0\n1 * 1\n",
        "SHEET 5 2 5\n\0SERVICE 1 1:100\n",
    ] {
        add(records, text);
    }
}

/// Each field of a sheet in turn, at its limits and of no form.
fn fields(records: &mut Records) {
    let numbers = "0 1 2 11 12 13 32 33 64 65 2047 2048 2049 9999 10000 10001 65536 00 01 012 -1 +1 1. 1.0 \
        .5 0.5 x 1x 18446744073709551616 18446744073709551617 4294967297 100 100.0 100.0000 100.0001 101 \
        99.9999 0.0001 0.00001 18. 18.4.2 018.4 18.40000 18.4000000 100.000000 100.0000000 100.000001 \
        99.999999 0.000001 0.0000001";
    for number in numbers.split(' ').chain([""]) {
        add(records, &format!("SHEET {number} 2 5\nSERVICE 1 1:100\n"));
        add(
            records,
            &format!("SHEET 5 {number} 5\nSERVICE 1 1:50 2:30 3:20\n"),
        );
        add(
            records,
            &format!("SHEET 5 2 {number}\nSERVICE 1 1:50 2:30 3:20\n"),
        );
        add(
            records,
            &format!("SHEET 5 2 5\nSERVICE {number} 1:50 2:30 3:20\n"),
        );
        add(records, &format!("SHEET 5 2 5\nSERVICE 1 7:{number}\n"));
        add(records, &format!("SHEET 5 2 5\nSERVICE 1 {number}\n"));
        add(records, &format!("SHEET 5 2 5\nSERVICE 1 {number}:100\n"));
        add(
            records,
            &format!("SHEET 5 2 5\nSERVICE 1 4:50 {number}:50\n"),
        );
        let front = format!("SHEET 5 2 5\nSERVICE 1 1:{number} 2:50 3:50\n");
        add(records, &front);
        let head = "SHEET 5 2 1\nSERVICE 1 1:50 2:50\nSERVICE 1 1:50 2:50";
        add(records, &format!("{head} 3:{number}\n"));
    }
    for bad in ["x", "5 x", "5 2 x", "13 101 0", "13", "5 101"] {
        add(records, &format!("SHEET {bad} 1 1\nSERVICE\n"));
        add(records, &format!("SHEET {bad}\nSERVICE\n"));
    }
}

/// Backends of a service that are right.
const GOOD: [&str; 11] = [
    "1:100",
    "9999:100",
    "1:50 9999:50",
    "9998:50 9999:50",
    "12:25 345:25 6789:50",
    "1000:0 1001:0 2000:100",
    "3:33.3333 70:33.3334 800:33.3333",
    "3:33.33333 70:33.33334 800:33.33333",
    "3:33.333333 70:33.333334 800:33.333333",
    "3:16.666667 70:33.333333 9999:50.000000",
    "9:10 10:20 99:30 100:0 999:30 1000:10",
];

/// Backends of a service that are wrong in some way.
const BAD: [&str; 40] = [
    "0:100",
    "10000:100",
    "0:50 1:50",
    "9999:50 10000:50",
    "01:50 2:50",
    "1:50 02:50",
    "0009:100",
    "100",
    "50 50",
    "1:50 50",
    "50 2:50",
    ":100",
    "1:50 :50",
    "1:",
    "1:50 5:",
    "1:100 5:",
    ":",
    "1:50:50",
    "1::100",
    "1:100:",
    ":1:100",
    "1:2:3",
    "5:50 5:50",
    "5:50 4:50",
    "1:20 3:30 2:50",
    "1:20 9999:30 2:50",
    "2:50 2:49",
    "2:50 1:49",
    "1:50 2:49",
    "9999:99.9999",
    "9999:99.999999",
    "1:50 2:50.000001",
    "1:50.0000000 2:50",
    "1:33.3333333 2:33.3333333 3:33.3333334",
    "1.0:100",
    "+1:100",
    "x:100",
    "1:x",
    "1;100",
    "1: 100",
];

/// Each of these as the first service and behind one of other ids, the volume
/// good or bad; and sheets of bare percentages.
fn backends(records: &mut Records) {
    for weights in GOOD.iter().chain(&BAD) {
        add(records, &format!("SHEET 5 2 9\nSERVICE 1 {weights}\n"));
        let second = format!("SHEET 5 2 9\nSERVICE 1 7:100\nSERVICE 9 {weights}\n");
        add(records, &second);
        add(records, &format!("SHEET 5 2 1\nSERVICE x {weights}\nX\n"));
    }
    many_backends(records);
    let bare = SAMPLE
        .replace(" 1:", " ")
        .replace(" 2:", " ")
        .replace(" 3:", " ");
    add(records, &bare);
    add(
        records,
        &bare.replace("\nSERVICE 55", "\nSERVICE 1 1:100\nSERVICE 55"),
    );
    for (head, weights) in ["5 2", "5 0", "1 0"]
        .iter()
        .zip(["25 25 50", "100", "50 50"])
    {
        add(records, &format!("SHEET {head} 32\nSERVICE 1 {weights}\n"));
    }
}

/// 31 to 34 backends of ids that are good, too long, equal, descending or from 0.
fn many_backends(records: &mut Records) {
    for count in [31, 32, 33, 34] {
        let forms: [fn(usize) -> usize; 6] = [
            |i| i,
            |i| 9_967 + i,
            |i| 9_968 + i,
            |_| 7,
            |i| 99 - i,
            |i| i - 1,
        ];
        for form in forms {
            for part in ["3.125", "3", "x"] {
                let parts: String = (1..=count)
                    .map(|i| format!(" {}:{part}", form(i)))
                    .collect();
                add(records, &format!("SHEET 12 0 64\nSERVICE 1{parts}\n"));
            }
        }
    }
}

/// Numbers of services and backends, and lengths of the text, at their limits.
fn at_limits(records: &mut Records, random: &mut Random) {
    let line = "SERVICE 1 1:100\n";
    for services in [1, 2, 63, 64, 65] {
        for capacity in [1, 62, 63, 64, 65, 2_048] {
            let lines = line.repeat(services);
            add(records, &format!("SHEET 1 0 {capacity}\n{lines}"));
        }
    }
    for last in [
        "SERVICE",
        "SERVICE\n",
        "SERVICE x\n",
        "SERVIC 1 1:100\n",
        "\n",
        "x",
        "SERVICE 1 1:50\n",
    ] {
        add(records, &format!("SHEET 1 0 64\n{}{last}", line.repeat(64)));
    }
    for weights in [31, 32, 33, 34, 100] {
        for (volume, part) in [("1", ":3.125"), ("x", ":3.125"), ("1", ""), ("1", ":1")] {
            let parts: String = (1..=weights).map(|id| format!(" {id}{part}")).collect();
            add(
                records,
                &format!("SHEET 12 0 64\nSERVICE {volume}{parts}\n"),
            );
        }
    }
    large(records, random);
    long(records);
}

/// Sheets of 64 services of up to 32 backends.
fn large(records: &mut Records, random: &mut Random) {
    for capacity in [2_048, 64] {
        let shape = OrderShape {
            services: 64,
            backends: 32,
            bits: 12,
        };
        let mut order = order(random, &shape);
        (order.k, order.tolerance, order.capacity) = (12, 0, capacity);
        records.add("R", &sheet_text(random, &order));
    }
    let weights: String = (9_968..10_000).map(|id| format!(" {id}:3.1250")).collect();
    let widest = format!("SERVICE 10000{weights}\n");
    add(
        records,
        &format!("SHEET 12 0.0000 2048\n{}", widest.repeat(64)),
    );
    records.add("R", &sheet_text(random, &largest_total()));
    for services in FORMER_TOTALS {
        add(records, &format!("SHEET 12 0 3\n{services}"));
    }
}

/// Services of which the first three rules make the greatest total before request
/// 07, as little more as k 12 allows, and as little less.
const FORMER_TOTALS: [&str; 3] = [
    "SERVICE 10000 1:50 2:50\nSERVICE 2799 1:50 2:50\nSERVICE 1 1:50 2:50\n",
    "SERVICE 10000 1:50 2:50\nSERVICE 2800 1:50 2:50\nSERVICE 1 1:0.000001 2:99.999999\n",
    "SERVICE 10000 1:50 2:50\nSERVICE 2799 1:50 2:50\nSERVICE 1 1:50.000001 2:49.999999\n",
];

/// Texts of 65,535 to 65,537 bytes.
fn long(records: &mut Records) {
    let head = "SHEET 5 2 5\nSERVICE 1 1:100\n";
    for length in [65_535, 65_536, 65_537] {
        let rest = length - head.len();
        add(records, &format!("{head}{}\n", "9".repeat(rest - 1)));
        add(
            records,
            &format!("{head}SERVICE 1 1:{}\n", "1".repeat(rest - 13)),
        );
    }
    add(
        records,
        &format!("{head}{}", " ".repeat(65_536 - head.len())),
    );
    add(records, &"\n".repeat(65_537));
    add(records, &format!("SHEET 5 2 {}\n", "5".repeat(60_000)));
}

/// A small order; most have few services and backends.
pub(super) fn small(random: &mut Random) -> Order {
    let shape = OrderShape {
        services: *random.pick(&[1, 1, 1, 2, 2, 3, 4, 7]),
        backends: *random.pick(&[1, 2, 3, 4, 6, 12]),
        bits: 12,
    };
    order(random, &shape)
}

/// Sheets that keep the rules.
fn good(records: &mut Records, random: &mut Random) {
    for _ in 0..1_010 {
        let order = small(random);
        records.add("R", &sheet_text(random, &order));
    }
}

/// Sheets spoilt at random.
fn spoilt(records: &mut Records, random: &mut Random) {
    for _ in 0..1_600 {
        let order = small(random);
        let text = sheet_text(random, &order);
        records.add("R", &spoil(random, &text));
    }
}

/// As many sheets spoilt at random as asked, another run for each seed.
pub fn hostile(seed: u64, count: usize) -> Records {
    let mut random = Random::new(seed);
    let mut records = Records::default();
    records.begin("sheets");
    for _ in 0..count {
        let order = small(&mut random);
        let text = sheet_text(&mut random, &order);
        records.add("R", &spoil(&mut random, &text));
    }
    records
}

/// Sheets with a weight too much or too little, a capacity below the services
/// or no service at all.
fn unbalanced(records: &mut Records, random: &mut Random) {
    for _ in 0..200 {
        let mut order = small(random);
        let count = order.services.len() as u64;
        match random.below(3) {
            0 => order.capacity = random.within(1, count),
            1 => order.services.truncate(random.below(count) as usize),
            _ => {
                let service = &mut order.services[random.below(count) as usize];
                let weight = &mut service.weights[0];
                let apart = *random.pick(&[1, FOURTH]);
                *weight = match *weight < apart {
                    true => *weight + apart,
                    false => *weight - apart,
                };
            }
        }
        let mut text = sheet_text(random, &order);
        if random.once_in(4) {
            text.pop();
            let apart = *random.pick(&[1, FOURTH]);
            text.extend(format!(" 9999:{}\n", percentage_text(random, apart)).bytes());
        }
        records.add("R", &text);
    }
}
