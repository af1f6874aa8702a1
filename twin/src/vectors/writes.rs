//! Vectors `W`: tables in numbers, for a lent buffer of so many bytes.

use super::expansion::numbers;
use super::records::Records;
use super::rule_sheets::{LINES, SAMPLE};
use super::shapes::{rule_table, FORMER_TOTAL};
use super::spoil::spoil_numbers;
use crate::handed::{numbers_of, table_of, write};
use crate::limits::MOST_TOTAL;
use crate::random::Random;
use crate::rule_sheet::{read, text_of};
use crate::suffix::Suffix;

/// How many bytes behind the buffer are shown, although they aren't lent.
const BEHIND: usize = 4;

/// The answer, and all of the buffer afterwards, which was filled with dots.
pub fn answer(k: u64, total: u64, room: u64, payload: &[u8]) -> Option<String> {
    let numbers = numbers(std::str::from_utf8(payload).ok()?)?;
    let room = usize::try_from(room).ok()?;
    let mut buffer = vec![b'.'; room + BEHIND];
    let answer = match write(k, total, &numbers, &mut buffer[..room]) {
        Ok(end) => format!("end {end}"),
        Err(refusal) => refusal.to_string(),
    };
    let buffer = String::from_utf8_lossy(&buffer).replace('\n', "/");
    Some(format!("{answer} {buffer}"))
}

/// Adds all of them.
pub fn add_all(records: &mut Records) {
    let mut random = Random::new(7);
    listed(records);
    heads(records);
    fields(records);
    suffixes(records);
    orders(records);
    thirty_third_rules(records);
    at_limits(records);
    left_over(records);
    too_long(records);
    many_and_wide(records);
    proper(records, &mut random);
    spoilt(records, &mut random);
}

fn add(records: &mut Records, k: u64, total: u64, room: usize, numbers: &[u64]) {
    let numbers: Vec<String> = numbers.iter().map(u64::to_string).collect();
    let header = format!("W {k} {total} {room}");
    records.add(&header, numbers.join(" ").as_bytes());
}

/// The length of a table's text, or a small room if the table is refused.
fn needed(k: u64, total: u64, numbers: &[u64]) -> usize {
    table_of(k, total, numbers).map_or(9, |table| text_of(&table).len())
}

fn sample() -> Vec<u64> {
    let table = read(SAMPLE.as_bytes()).expect("the sample keeps the rules");
    numbers_of(&table.lines)
}

/// The sample with rooms around what it needs, and its first 0, 1, .. numbers,
/// of which some don't make whole lines, with good and bad numbers beside them.
fn listed(records: &mut Records) {
    let mut sample = sample();
    let (total, length) = (29_333_392_000, SAMPLE.len());
    for room in [0, 1, 5, 20, length - 1, length, length + 1, 70] {
        add(records, 5, total, room, &sample);
    }
    for length in 0..=sample.len() {
        add(records, 5, 1, 60, &sample[..length]);
        if length % 4 != 0 {
            add(records, 13, 1, 5, &sample[..length]);
        }
    }
    sample[0] = 65;
    for length in [1, 3, 5, 18] {
        add(records, 5, MOST_TOTAL + 1, 5, &sample[..length]);
        add(records, 5, 0, 5, &sample[..length]);
    }
}

/// The sample with k and total at their limits and above.
fn heads(records: &mut Records) {
    let sample = sample();
    for k in [0, 1, 2, 3, 11, 12, 13, 64, (1 << 32) + 5, 1 << 63, u64::MAX] {
        add(records, k, 7, needed(k, 7, &sample), &sample);
    }
    for total in [
        0,
        9,
        10,
        FORMER_TOTAL - 1,
        FORMER_TOTAL,
        FORMER_TOTAL + 1,
        MOST_TOTAL / 3,
        MOST_TOTAL - 1,
        MOST_TOTAL,
        MOST_TOTAL + 1,
        1 << 58,
        1 << 63,
        u64::MAX,
    ] {
        let room = needed(5, total, &sample);
        add(records, 5, total, room, &sample);
        add(records, 5, total, room - 1, &sample);
    }
}

/// Each number of two lines in turn, at its limits and beyond.
fn fields(records: &mut Records) {
    let table = [1, 2, 1, 1, 1, 0, 0, 2];
    for at in 0..table.len() {
        for number in [
            0,
            1,
            2,
            4,
            12,
            13,
            32,
            33,
            64,
            65,
            9_999,
            10_000,
            65_537,
            1 << 32,
            u64::MAX,
        ] {
            let mut numbers = table;
            numbers[at] = number;
            add(records, 3, 0, 30, &numbers);
        }
    }
}

/// Suffixes of every length, with the greatest value and with one above it.
fn suffixes(records: &mut Records) {
    for length in 0..=13 {
        for value in [(1 << length) - 1, 1 << length] {
            let table = [64, length, value, 9_999, 64, 0, 0, 1];
            add(records, 12, 0, needed(12, 0, &table), &table);
        }
    }
    for length in [63, 64, 65, 128, 70_000] {
        add(records, 12, 0, 20, &[1, length, 0, 1, 1, 0, 0, 1]);
    }
}

/// The numbers of lines as they stand in a rule sheet, between commas.
fn numbers_in(lines: &str) -> Option<Vec<u64>> {
    let mut numbers = Vec::new();
    for line in lines.split(',') {
        let fields: Vec<&str> = line.split(' ').collect();
        let suffix = Suffix::read(fields[1].as_bytes(), 12)?;
        numbers.push(fields[0].parse().ok()?);
        numbers.push(u64::from(suffix.length()));
        numbers.push(u64::from(suffix.value()));
        numbers.push(fields[2].parse().ok()?);
    }
    Some(numbers)
}

/// Lines in and out of order.
fn orders(records: &mut Records) {
    for numbers in LINES.iter().filter_map(|lines| numbers_in(lines)) {
        for k in [1, 5] {
            add(records, k, 12, needed(k, 12, &numbers), &numbers);
        }
    }
}

/// Services of 31 to 34 rules: the 33rd comes after the limits of its fields
/// and before the order, also where the service comes back.
fn thirty_third_rules(records: &mut Records) {
    let tails: [&[u64]; 6] = [
        &[],
        &[1, 0, 0, 1],
        &[1, 0, 0, 1, 1, 0, 0, 1],
        &[2, 0, 0, 1],
        &[1, 2, 0, 1],
        &[1, 1, 0, 10_000],
    ];
    for before in [30, 31, 32, 33] {
        for tail in tails {
            let numbers = [&[1, 1, 0, 2].repeat(before), tail].concat();
            add(records, 5, 0, needed(5, 0, &numbers), &numbers);
        }
    }
    let again = [
        &[1, 1, 0, 2].repeat(31),
        &[1, 0, 0, 1, 2, 0, 0, 1, 1, 0, 0, 1][..],
    ];
    add(records, 5, 0, 9, &again.concat());
}

/// 64 services, 2,048 lines, the longest text, and more.
fn at_limits(records: &mut Records) {
    let stars: Vec<u64> = (1..=65)
        .flat_map(|service| [service, 0, 0, 9_999])
        .collect();
    add(records, 1, 0, needed(1, 0, &stars[..256]), &stars[..256]);
    add(records, 1, 0, 9, &stars);
    let lines = |rule: [u64; 3]| {
        let [length, value, backend] = rule;
        let own = move |service| {
            let rules = [service, length, value, backend].repeat(31);
            rules.into_iter().chain([service, 0, 0, backend])
        };
        (1..=64).flat_map(own).collect::<Vec<u64>>()
    };
    let mut small = lines([1, 0, 1]);
    add(records, 1, 0, needed(1, 0, &small) - 1, &small);
    small.extend([64, 0, 0, 1]);
    add(records, 1, 0, 9, &small);
    let wide = lines([12, 2_730, 9_999]);
    let room = needed(12, MOST_TOTAL, &wide);
    add(records, 12, MOST_TOTAL, room, &wide);
}

/// Numbers left over, of any size: alone, and behind lines that are right, have
/// no `*` yet, are bad, are one too many or out of order.
fn left_over(records: &mut Records) {
    let thirty_three = [1, 1, 0, 2].repeat(33);
    let fronts: [&[u64]; 10] = [
        &[],
        &[1, 0, 0, 1],
        &[1, 1, 0, 1],
        &[1, 0, 0, 1, 2, 5, 31, 9_999],
        &[65, 0, 0, 1],
        &[1, 6, 0, 1],
        &[1, 0, 1, 1],
        &[1, 0, 0, 10_000, 1, 0, 0, 1],
        &[1, 0, 0, 1, 1, 0, 0, 1],
        &thirty_three,
    ];
    let rests: [&[u64]; 5] = [&[0], &[2, 0], &[2, 0, 0], &[65, 13, 9], &[u64::MAX]];
    for front in fronts {
        for rest in rests {
            add(records, 5, 0, 20, &[front, rest].concat());
        }
        for (k, total) in [(0, 0), (13, 0), (12, MOST_TOTAL + 1)] {
            add(records, k, total, 9, &[front, &[1, 0]].concat());
        }
    }
}

/// The text of so many bytes that a long suffix makes; its line comes first or
/// behind others, and numbers may be left over behind it.
fn add_long(records: &mut Records, k: u64, bytes: u64, others: &[u64], rest: &[u64]) {
    let lines = 1 + (others.len() + rest.len()).div_ceil(4) as u64;
    let line = "1 * 1\n".len() as u64;
    let head = format!("TABLE {k} {lines} 7\n").len() as u64;
    let broken = if rest.is_empty() {
        0
    } else {
        "1\n".len() as u64
    };
    let bits = bytes - head - broken - line * (1 + others.len() as u64 / 4);
    let long = [1, bits, 0, 1];
    add(records, k, 7, 20, &[others, &long, rest].concat());
    add(records, k, 7, 20, &[&long, others, rest].concat());
}

/// Suffixes so long that the text is at its limit of 65,536 bytes or above, by
/// one byte or by more than 64 bits can count.
fn too_long(records: &mut Records) {
    for bytes in [65_535, 65_536, 65_537, 70_000, 1 << 32] {
        add_long(records, 5, bytes, &[], &[]);
        add_long(records, 5, bytes, &[1, 0, 0, 1], &[]);
        add_long(records, 13, bytes, &[1, 0, 0, 1, 1, 0, 0, 1], &[1]);
        add_long(records, 5, bytes, &[9, 0, 0, 9], &[9, 70_000, 0]);
    }
    for length in [65_530, 1_000_000, 1 << 32, 1 << 63, u64::MAX] {
        for k in [0, 12, u64::MAX] {
            add(records, k, 0, 9, &[1, length, 0, 1]);
        }
        add(
            records,
            5,
            u64::MAX,
            9,
            &[length, length, length, length, 1],
        );
        add(
            records,
            5,
            0,
            9,
            &[1, 0, length, 1, length, 0, length, length],
        );
    }
    for small in 0..24 {
        add(records, 5, 0, 9, &[1, u64::MAX - small, 0, 1]);
    }
    for (times, length) in [(2, 1 << 63), (4, 1 << 62), (8, 1 << 61), (256, 1 << 56)] {
        add(records, 5, 0, 9, &[1, length, 0, 1].repeat(times));
    }
    add(records, 5, 0, 9, &[1, u64::MAX, 0, 1, 1, 1, 0, 1]);
    add(records, 5, 0, 9, &[1, u64::MAX - 40, 0, 1].repeat(3));
}

/// 2,047 to 2,049 lines, with the broken one, and as many wide lines around
/// 65,536 bytes.
fn many_and_wide(records: &mut Records) {
    let own = |service| [[service, 1, 0, 1].repeat(31), vec![service, 0, 0, 1]].concat();
    let mut full: Vec<u64> = (1..=64).flat_map(own).collect();
    for length in [8_189, 8_191] {
        add(records, 1, 0, 9, &full[..length]);
    }
    full.extend([64, 0, 0]);
    for length in [8_193, 8_195] {
        add(records, 1, 0, 9, &full[..length]);
    }
    for (k, total) in [(1, 0), (13, 0), (1, u64::MAX)] {
        add(records, k, total, 9, &[1, 0, 0, 1].repeat(2_049));
    }
    // Lines of 32 bytes, line 1 of 16, then `10 *.. 10` and `10`, around 65,536.
    for (lines, bits) in [(2_046, 37), (2_047, 5)] {
        for more in 0..3 {
            let mut wide = [9_999_999_999, 7, 0, 10_000_000_000].repeat(lines);
            wide.extend([10, bits - 1 + more, 0, 10, 10]);
            add(records, 12, 0, 9, &wide);
        }
    }
}

/// Tables that keep the order, with rooms around what they need.
fn proper(records: &mut Records, random: &mut Random) {
    for turn in 0..36 {
        let k = random.within(1, 12);
        let table = rule_table(random, k, 4);
        let length = text_of(&table).len();
        let rooms = [length, length + 1, length - 1, length + 9, 0, 7];
        let room = rooms[turn % rooms.len()];
        add(records, k, table.total, room, &numbers_of(&table.lines));
    }
}

/// Tables spoilt at random; the room is enough for those that are still right.
fn spoilt(records: &mut Records, random: &mut Random) {
    for _ in 0..60 {
        let k = random.within(1, 12);
        let table = rule_table(random, k, 4);
        let mut numbers = numbers_of(&table.lines);
        spoil_numbers(random, &mut numbers);
        let room = needed(k, table.total, &numbers);
        add(records, k, table.total, room, &numbers);
    }
}
