//! Vectors `P`: the one call with lent buffers of so many numbers.

use super::percentage_sheets::{cases, fine_cases, small, SAMPLE};
use super::records::Records;
use super::shapes::{largest_total, percentage_text, sheet_text};
use super::spoil::spoil;
use crate::calls::split;
use crate::numerals::{PERCENT, WHOLE};
use crate::packing::Packing;
use crate::plan::plan;
use crate::random::Random;

/// What a buffer is filled with: a number that no figure and no cell can be.
pub(super) const MARK: u64 = 77_777;

/// How many numbers behind each buffer are shown, although they aren't lent.
pub(super) const BEHIND: usize = 4;

/// The answer, and all of both buffers afterwards.
pub fn answer(sheet: &[u8], figures_room: u64, table_room: u64) -> Option<String> {
    let figures_room = usize::try_from(figures_room).ok()?;
    let table_room = usize::try_from(table_room).ok()?;
    let mut figures = vec![MARK; figures_room + BEHIND];
    let mut table = vec![MARK; table_room + BEHIND];
    let answer = match plan(
        sheet,
        &mut figures[..figures_room],
        &mut table[..table_room],
    ) {
        Ok(packing) => measures(&packing),
        Err(refusal) => refusal.to_string(),
    };
    let (figures, table) = (row_text(&figures), row_text(&table));
    Some(format!("{answer} figures{figures} table{table}"))
}

fn measures(packing: &Packing) -> String {
    let (table, services) = (&packing.table, packing.grants.len());
    let (k, rules, total) = (table.k, table.lines.len(), table.total);
    format!("made {k} {services} {rules} {total}")
}

pub(super) fn row_text(numbers: &[u64]) -> String {
    numbers.iter().map(|number| format!(" {number}")).collect()
}

/// Adds all of them.
pub fn add_all(records: &mut Records) {
    let mut random = Random::new(6);
    listed(records);
    refused(records);
    at_limits(records, &mut random);
    good(records, &mut random);
    spoilt(records, &mut random);
}

fn add(records: &mut Records, rooms: (usize, usize), text: &[u8]) {
    records.add(&format!("P {} {}", rooms.0, rooms.1), text);
}

/// The rooms that a sheet needs; nothing if it is refused.
fn needed(text: &[u8]) -> Option<(usize, usize)> {
    let packing = split(text).ok()?;
    Some((3 * packing.grants.len(), 4 * packing.table.lines.len()))
}

/// The sample with rooms around what it needs and with every capacity; the P
/// cases with just the room they need.
fn listed(records: &mut Records) {
    for figures in [0, 1, 5, 6, 7, 12] {
        for table in [0, 1, 19, 20, 21, 24] {
            add(records, (figures, table), SAMPLE.as_bytes());
        }
    }
    for capacity in 0..=9 {
        let text = SAMPLE.replacen("2 5\n", &format!("2 {capacity}\n"), 1);
        add(records, (7, 29), text.as_bytes());
    }
    for text in cases().into_iter().chain(fine_cases()) {
        let rooms = needed(text.as_bytes()).unwrap_or((3, 4));
        add(records, rooms, text.as_bytes());
    }
}

/// Each refusal, with no room and with some.
fn refused(records: &mut Records) {
    let many_weights = format!("SHEET 5 0 9\nSERVICE 1{}\n", " 1:1".repeat(33));
    let many_services = format!("SHEET 1 0 64\n{}", "SERVICE 1 1:100\n".repeat(65));
    for text in [
        "",
        "SHEET 5 2 5",
        "SHEET 5 2 5\nSERVICE 1 1:100\nSERVICE 1 1:100",
        "SHEET 5 2 5\nSERVICE 1 1:100\nSERVIC 1 100\n",
        "SHEET 13 2 5\nSERVICE 1 1:100\n",
        "SHEET 5 2 5\nSERVICE 1 1:100\nSERVICE 1 1:100.0001\n",
        "SHEET 5 2 5\nSERVICE 1 1:100\nSERVICE 1 1:100.000001\n",
        "SHEET 5 18.4000000 5\nSERVICE 1 1:100\n",
        "SHEET 5 2 5\nSERVICE 1 1:50 2:49.9999\n",
        "SHEET 5 2 5\nSERVICE 1 1:50 2:49.999999\n",
        &many_weights,
        &many_services,
        "SHEET 5 2 5\n",
        "SHEET 5 2 1\nSERVICE 1 1:100\nSERVICE 1 1:100\n",
    ] {
        for rooms in [(0, 0), (2, 3), (6, 8)] {
            add(records, rooms, text.as_bytes());
        }
    }
    add(records, (6, 8), &[b'\n'; 65_537]);
}

/// Lists that end with the budget, and as many services and rules as can be.
fn at_limits(records: &mut Records, random: &mut Random) {
    let uneven = uneven(random);
    let one = format!("SHEET 12 0 2048\n{uneven}");
    for rooms in [(3, 128), (3, 127), (2, 128)] {
        add(records, rooms, one.as_bytes());
    }
    let plain = format!("SHEET 1 0 64\n{}", "SERVICE 1 1:100\n".repeat(64));
    for rooms in [(192, 256), (193, 257), (191, 256), (192, 255)] {
        add(records, rooms, plain.as_bytes());
    }
    let full = format!("SHEET 12 0 2048\n{}", uneven.repeat(64));
    for rooms in [(192, 8_192), (192, 8_191)] {
        add(records, rooms, full.as_bytes());
    }
    add(records, (192, 256), &sheet_text(random, &largest_total()));
}

/// A service of 32 weights that 32 rules can't make.
fn uneven(random: &mut Random) -> String {
    let mut rest = WHOLE;
    let mut line = "SERVICE 10000".to_string();
    for id in 1..32 {
        let weight = random.within(2 * PERCENT + 1, 16 * PERCENT / 5 - 1);
        rest -= weight;
        line += &format!(" {id}:{}", percentage_text(random, weight));
    }
    line + &format!(" 9999:{}\n", percentage_text(random, rest))
}

/// Sheets that keep the rules, with rooms around what they need.
fn good(records: &mut Records, random: &mut Random) {
    for turn in 0..81 {
        let order = small(random);
        let text = sheet_text(random, &order);
        let Some((n, m)) = needed(&text) else {
            continue;
        };
        let rooms = [
            (n, m),
            (n + 1, m + 1),
            (n - 1, m),
            (n, m - 1),
            (n - 1, m - 1),
            (n + 3, m + 4),
            (n, 0),
            (0, m),
            (n, m - 4),
        ];
        add(records, rooms[turn % rooms.len()], &text);
    }
}

/// Sheets spoilt at random; the room is enough for those that are still right.
fn spoilt(records: &mut Records, random: &mut Random) {
    for _ in 0..40 {
        let order = small(random);
        let text = sheet_text(random, &order);
        let text = spoil(random, &text);
        let some = (random.below(8) as usize, random.below(8) as usize);
        add(records, needed(&text).unwrap_or(some), &text);
    }
}
