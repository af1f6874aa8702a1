//! Vectors for new weights on a loaded table: `L` in numbers, `T` on two sheets,
//! each with a lent buffer of so many numbers.

use super::asks::{self, ask_of, Ask};
use super::choices::Choice;
use super::expansion::{refused_text, rows};
use super::loaded::{of_sheets, two_sheets, Loaded};
use super::plans::{row_text, BEHIND, MARK};
use super::records::{Record, Records};
use super::rule_sheets::{some_service, LINES};
use super::shapes::sheet_text;
use super::sheets::shown;
use super::spoil::spoil;
use super::{known, percentage_sheets, rule_sheets, several};
use crate::calls::split;
use crate::random::Random;
use crate::rule_sheet::text_of;
use crate::update::{update, update_sheets, Updated};

/// What the twin says to one record, and all of the buffer afterwards; nothing
/// if the record is of no kind.
pub fn answer(record: &Record) -> Option<String> {
    let room = usize::try_from(*record.numbers.last()?).ok()?;
    let mut list = vec![MARK; room + BEHIND];
    let lent = &mut list[..room];
    let answer = match (record.kind, record.numbers.as_slice()) {
        ("L", &[k, tolerance, _]) => {
            let [old, ids, weights] = rows(std::str::from_utf8(record.payload).ok()?)?;
            let made = update(k, tolerance, &old, &ids, &weights, lent);
            made.map_or_else(refused_text, |made| format!("made {}", made_text(made)))
        }
        ("T", &[service, length, _]) => {
            let length = usize::try_from(length).ok()?;
            let (old, sheet) = record.payload.split_at_checked(length)?;
            let made = update_sheets(old, sheet, service, lent);
            shown(made.map(|(k, made)| format!("made {k} {}", made_text(made))))
        }
        _ => return None,
    };
    Some(format!("{answer} rules{}", row_text(&list)))
}

fn made_text(made: Updated) -> String {
    format!("{} {} {}", made.keep, made.rules, made.churn)
}

/// Adds all of them.
pub fn add_all(records: &mut Records) {
    let mut random = Random::new(12);
    in_numbers(records, &mut random);
    refused_numbers(records, &mut random);
    tight_numbers(records);
    named_numbers(records);
    sheets_listed(records);
    sheets_in_lines(records);
    sheets_at_limits(records);
    sheets_with_rooms(records);
    sheets_of_ids(records);
    sheets_of_decimals(records);
    sheets_at_random(records, &mut random);
    several_numbers(records);
    several_sheets(records);
}

fn add(records: &mut Records, ask: &Ask, room: usize) {
    let Ask { k, tolerance, .. } = ask;
    records.add(&format!("L {k} {tolerance} {room}"), &ask.payload());
}

/// The room that the largest r that ends within needs; a little if there is none.
/// The vectors that ask with it were made before request 05, when it was the answer.
fn largest_room(case: Option<Loaded>) -> usize {
    let choice = case.as_ref().map(Choice::of);
    let largest = choice.as_ref().and_then(Choice::largest);
    largest.map_or(3, |made| 3 * made.rules)
}

fn add_largest(records: &mut Records, ask: &Ask) {
    add(records, ask, largest_room(ask.case()));
}

/// Most often the room needed; else one less, one more, three less or none.
fn some_room(turn: usize, needed: usize) -> usize {
    match turn % 12 {
        2 => needed.saturating_sub(1),
        5 => needed + 1,
        8 => 0,
        10 => needed.saturating_sub(3),
        _ => needed,
    }
}

/// Lists and weights within their limits.
fn in_numbers(records: &mut Records, random: &mut Random) {
    let listed = [asks::p1_cases(), asks::p1_fine(), asks::every_keep(random)];
    for ask in listed.concat() {
        add_largest(records, &ask);
    }
    let others = [
        asks::shaped(),
        asks::longest(random, 28),
        asks::at_random(random, 150),
    ];
    for (turn, ask) in others.concat().iter().enumerate() {
        let room = some_room(turn, largest_room(ask.case()));
        add(records, ask, room);
    }
    for room in [0, 1, 3, 9, 11, 12, 13, 100] {
        for ask in asks::p1_cases().iter().skip(2).take(4) {
            add(records, ask, room);
        }
    }
}

/// Numbers that are refused, with room and without.
fn refused_numbers(records: &mut Records, random: &mut Random) {
    let (faulty, lists) = (asks::faulty(false, 15), asks::lists());
    let asks = [faulty, lists, asks::weight_counts()];
    for (turn, ask) in asks.concat().iter().enumerate() {
        add(records, ask, 6 * (turn % 2));
    }
    for ask in [asks::faulty(true, 2), asks::heads()].concat() {
        add(records, &ask, 0);
    }
    for ask in asks::spoilt(random, 60) {
        let room = largest_room(ask.case()).min(12);
        add(records, &ask, room);
    }
}

/// The lowest tolerances of lists, and dropped rules to missing backends.
fn tight_numbers(records: &mut Records) {
    let mut random = Random::new(11);
    let mut loose: Vec<Ask> = asks::shaped().into_iter().step_by(2).collect();
    loose.extend(asks::longest(&mut random, 5));
    loose.extend(asks::at_random(&mut random, 28));
    let tight: Vec<Ask> = loose.iter().flat_map(asks::tight).collect();
    for ask in &tight {
        add_largest(records, ask);
    }
    for ask in asks::dropped_missing(&mut random, &tight).iter().step_by(6) {
        add_largest(records, ask);
    }
}

/// Backends that are missing, that come in and that are tied, and refused ids.
fn named_numbers(records: &mut Records) {
    let mut random = Random::new(13);
    let asks = [
        known::p1_named(),
        known::of_other_backends(&mut random, 72),
        known::all_known(&mut random),
        known::tied(),
        known::tied_givers(),
    ];
    for ask in asks.concat() {
        add_largest(records, &ask);
    }
    for (turn, ask) in known::refused_ids().iter().enumerate() {
        add(records, ask, 12 * (turn % 2));
    }
}

fn add_sheets(records: &mut Records, service: u64, old: &[u8], sheet: &[u8], room: usize) {
    let header = format!("T {service} {} {room}", old.len());
    records.add(&header, &[old, sheet].concat());
}

/// Rule sheets, the refused ones too.
const OLD: [&str; 10] = [
    "TABLE 5 3 0\n1 *0 2\n1 * 1\n2 * 3\n",
    "TABLE 5 2 0\n2 * 1\n3 * 2\n",
    "TABLE 4 2 0\n1 *1 1\n1 * 2\n",
    rule_sheets::SAMPLE,
    "",
    "TABLE 5 1 0\n",
    "TABLE 5 2 0\n1 * 1\n",
    "TABLE 5 1 0\n1 *0 1\n",
    "TABLE 5 1 0\n1 * 10000\n",
    "TABLE 5 1 0\n1 * 1",
];

/// Percentage sheets, the refused ones too.
const SHEETS: [&str; 10] = [
    percentage_sheets::SAMPLE,
    "SHEET 5 0 9\nSERVICE 1 1:75 2:25\n",
    "SHEET 4 100 9\nSERVICE 1 1:50 2:50\nSERVICE 1 1:100\n",
    "SHEET 5 100 9\nSERVICE 1 1:50 2:50\nSERVICE 1 1:100\nSERVICE 0 1:0 2:100\n",
    "",
    "SHEET 5 2 5\n",
    "SHEET 5 2 1\nSERVICE 1 1:100\nSERVICE 1 1:100\n",
    "SHEET 5 2 9\nSERVICE 1 1:50 2:49\n",
    "SHEET 5 2 9\nSERVICE 1 1:50 2:018.4\n",
    "SHEET 5 2 9\nSERVICES 1 100\n",
];

/// Each two of these for a service or two, and texts over their limit.
fn sheets_listed(records: &mut Records) {
    for (number, old) in OLD.iter().enumerate() {
        for (other, sheet) in SHEETS.iter().enumerate() {
            for service in [1, 2, 3] {
                if number + other > 9 || service == 3 && number * other > 3 {
                    continue;
                }
                add_sheets(records, service, old.as_bytes(), sheet.as_bytes(), 9);
            }
        }
    }
    let long = [b'\n'; 65_537];
    add_sheets(records, 1, &long, b"", 3);
    add_sheets(records, 1, OLD[1].as_bytes(), &long, 3);
    let many = "1 *0 1\n".repeat(32);
    let many = format!("TABLE 5 33 0\n{many}1 * 1\n");
    add_sheets(records, 1, many.as_bytes(), b"", 3);
    let many = format!("SHEET 5 0 9\nSERVICE 1{}\n", " 1:0".repeat(33));
    add_sheets(records, 3, OLD[0].as_bytes(), many.as_bytes(), 3);
}

/// Lines in and out of order, and the tables of the P cases with the weights of
/// each.
fn sheets_in_lines(records: &mut Records) {
    let sheet = b"SHEET 5 50 9\nSERVICE 1 1:50 2:50\nSERVICE 1 1:100\nSERVICE 1 1:25 2:75\n";
    for lines in LINES {
        let (n, text) = (lines.split(',').count(), lines.replace(',', "\n"));
        let old = format!("TABLE 5 {n} 12\n{text}\n");
        add_sheets(records, 1, old.as_bytes(), sheet, 9);
    }
    let cases = percentage_sheets::cases();
    for packing in cases.iter().flat_map(|case| split(case.as_bytes())) {
        let old = text_of(&packing.table);
        for sheet in &cases {
            add_sheets(records, 1, &old, sheet.as_bytes(), 12);
        }
    }
}

/// 64 services, 32 rules and 32 backends, and one more of each.
fn sheets_at_limits(records: &mut Records) {
    let mut lines: String = (1..64).map(|service| format!("{service} * 1\n")).collect();
    lines += &"64 *101010101010 9999\n".repeat(31);
    let old = format!("TABLE 12 95 0\n{lines}64 * 32\n");
    let most = "SERVICE 1 1:100\n".repeat(63);
    let weights: String = (1..=32).map(|id| format!(" {id}:3.125")).collect();
    let sheet = format!("SHEET 12 100 64\n{most}SERVICE 1{weights}\n");
    for (service, room) in [(64, 96), (64, 95), (65, 96)] {
        add_sheets(records, service, old.as_bytes(), sheet.as_bytes(), room);
    }
    for sheet in [
        sheet.replace("12 100", "12 0"),
        sheet.clone() + "SERVICE 1 1:100\n",
        sheet.replace(":3.125\n", ":3 33:0.125\n"),
        sheet.replace(" 32:3.125\n", "\n"),
    ] {
        add_sheets(records, 64, old.as_bytes(), sheet.as_bytes(), 96);
    }
    let sheet = b"SHEET 12 100 64\nSERVICE 1 1:100\n";
    for more in ["64 * 32\n64 * 32\n", "64 *0 1\n64 * 32\n", "65 * 1\n"] {
        let old = format!("TABLE 12 96 0\n{lines}{more}");
        add_sheets(records, 1, old.as_bytes(), sheet, 3);
    }
}

/// Rooms around what is needed, services that aren't there, and a depth, a
/// backend or a list that comes before the room.
fn sheets_with_rooms(records: &mut Records) {
    let (old, sheet) = (OLD[3].as_bytes(), SHEETS[0].as_bytes());
    for room in [0, 1, 8, 9, 10, 100] {
        add_sheets(records, 2, old, sheet, room);
        add_sheets(records, 1, old, sheet, room);
    }
    for service in [0, 3, 64, 65, 256, 258, 1 << 32, (1 << 32) + 2, u64::MAX] {
        add_sheets(records, service, old, sheet, 9);
    }
    for sheet in [
        "SHEET 4 100 9\nSERVICE 1 1:100\nSERVICE 1 1:100\n",
        "SHEET 5 100 9\nSERVICE 1 1:100\nSERVICE 1 1:50 2:50\n",
        "SHEET 5 0 9\nSERVICE 1 1:50 2:50\nSERVICE 1 1:10 2:20 3:70\n",
        "SHEET 5 0 9\nSERVICE 1 1:100\nSERVICE 1 1:50 2:25 3:25\n",
        "SHEET 5 100 9\nSERVICE 1 1:100\nSERVICE 1 1:0 2:0 3:100\n",
    ] {
        for room in [0, 8, 9] {
            add_sheets(records, 2, old, sheet.as_bytes(), room);
        }
    }
}

/// Rule sheets of ids, k 5.
const NAMED_OLD: [&str; 5] = [
    "1 *0 20,1 * 30,2 *0 1,2 * 9999",
    "1 *00 10,1 *0 20,1 * 30,2 * 10",
    "1 *11 5,1 *1 5,1 *0 7,1 * 5,2 * 4",
    "1 * 9999,2 * 1",
    "1 *0 20,1 * 10000",
];

/// The backends of two services.
const NAMED_NEW: [[&str; 2]; 9] = [
    ["30:100", "9999:100"],
    ["20:50 30:50", "1:50 9999:50"],
    ["10:25 20:25 30:50", "10:100"],
    ["20:25 30:75", "2:100"],
    ["6:50 8:50", "3:50 5:50"],
    ["1:0 5:50 7:0 9999:50", "1:100 9999:0"],
    ["30:50 20:50", "1:100"],
    ["20:50 30:50", "50 50"],
    ["50 50", "1:100"],
];

/// Each of these with each, for both services; 32 rules to as many backends with
/// weights of 32 others.
fn sheets_of_ids(records: &mut Records) {
    for lines in NAMED_OLD {
        let (n, text) = (lines.split(',').count(), lines.replace(',', "\n"));
        let old = format!("TABLE 5 {n} 0\n{text}\n");
        for (turn, [one, two]) in NAMED_NEW.iter().enumerate() {
            let tolerance = [0, 30][turn % 2];
            let sheet = format!("SHEET 5 {tolerance} 9\nSERVICE 1 {one}\nSERVICE 0 {two}\n");
            for service in [1, 2] {
                add_sheets(records, service, old.as_bytes(), sheet.as_bytes(), 12);
            }
        }
    }
    let rules: String = (1..32)
        .map(|i| format!("3 *{i:012b} {}\n", 2 * i))
        .collect();
    let old = format!("TABLE 12 32 0\n{rules}3 * 9999\n");
    let weights: String = (0..32).map(|i| format!(" {}:3.125", 2 * i + 1)).collect();
    for tolerance in [
        "100",
        "99.2431",
        "99.243164",
        "99.243165",
        "99.2432",
        "3.125",
        "3",
        "0",
    ] {
        let sheet = format!(
            "SHEET 12 {tolerance} 9\n{0}{0}SERVICE 1{weights}\n",
            "SERVICE 1 8:100\n"
        );
        add_sheets(records, 3, old.as_bytes(), sheet.as_bytes(), 96);
    }
}

/// Rules of tables whose k some fine cases have.
const FINE_OLD: [(u64, &str); 6] = [
    (1, "1 *0 2,1 * 1"),
    (2, "1 *00 4,1 *01 3,1 *0 2,1 * 1"),
    (2, "1 *00 3,1 *01 4,1 *0 1,1 * 2"),
    (5, "1 *00100 1,1 *000 1,1 *0 2,1 * 3"),
    (12, "1 *000 1,1 *0 2,1 * 3"),
    (12, "1 *0 1,1 * 2"),
];

/// Each of these with each of the fine cases.
fn sheets_of_decimals(records: &mut Records) {
    for (k, lines) in FINE_OLD {
        let (n, text) = (lines.split(',').count(), lines.replace(',', "\n"));
        let old = format!("TABLE {k} {n} 0\n{text}\n");
        let like = |sheet: &String| sheet.starts_with(&format!("SHEET {k} "));
        for sheet in percentage_sheets::fine_cases()
            .iter()
            .filter(|&sheet| like(sheet))
        {
            add_sheets(records, 1, old.as_bytes(), sheet.as_bytes(), 3 * n);
        }
    }
}

/// Sheets of every shape; one of ten is spoilt.
fn sheets_at_random(records: &mut Records, random: &mut Random) {
    for turn in 0..140 {
        let (table, order) = two_sheets(random);
        let service = some_service(random, &table);
        let (mut old, mut sheet) = (text_of(&table), sheet_text(random, &order));
        match turn % 20 {
            0 => old = spoil(random, &old),
            10 => sheet = spoil(random, &sheet),
            _ => (),
        }
        let room = largest_room(of_sheets(&old, &sheet, service));
        add_sheets(records, service, &old, &sheet, some_room(turn, room));
    }
}

/// The room that the answer needs, a little if there is none. Now and then that of
/// the longest list that ends within, or, where there is a shorter one, also the
/// room of that one, and one number less than what is needed.
fn rooms(turn: usize, case: &Loaded) -> Vec<usize> {
    let choice = Choice::of(case);
    let needed = choice.answer().map_or(1, |made| made.rules) * 3;
    match (turn % 7, choice.shortest(), choice.longest()) {
        (0, Some(shortest), _) => vec![needed, 3 * shortest, needed - 1],
        (2 | 5, _, Some(longest)) => vec![3 * longest],
        _ => vec![needed],
    }
}

/// Several r that end within.
fn several_numbers(records: &mut Records) {
    let mut random = Random::new(17);
    let cases = [
        several::small(),
        several::of_every_way(&mut random, 1..=12),
        several::largest(&mut random),
    ];
    let cases = cases.concat();
    let mut asks: Vec<Ask> = cases.iter().map(ask_of).collect();
    asks.extend(several::at_each_tolerance(&mut random, 4));
    for (turn, ask) in asks.iter().enumerate() {
        let case = ask.case().expect("a list and weights within their limits");
        for room in rooms(turn, &case) {
            add(records, ask, room);
        }
    }
}

/// The same for a service of two sheets.
fn several_sheets(records: &mut Records) {
    let mut random = Random::new(19);
    let mut cases = several::of_every_way(&mut random, (2..=12).step_by(2));
    cases.extend(several::small().into_iter().step_by(3));
    cases.extend(several::largest(&mut random).into_iter().step_by(3));
    for (turn, case) in cases.iter().enumerate() {
        let (service, table, order) = several::among_others(&mut random, case);
        let (old, sheet) = (text_of(&table), sheet_text(&mut random, &order));
        for room in rooms(turn, case) {
            add_sheets(records, service, &old, &sheet, room);
        }
    }
}
