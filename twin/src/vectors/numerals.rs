//! Vectors for numerals, suffixes, tree places, lines and fields.

use super::records::{Record, Records};
use super::shapes::FORMER_TOTAL;
use crate::limits::MOST_TOTAL;
use crate::lines::{field_ends, find_lf};
use crate::numerals::{read_number, read_percentage, write_number};
use crate::random::Random;
use crate::refusal::Reason;
use crate::suffix::{write_handed, Suffix, MOST_BITS};

/// What the twin says to one record; nothing if the record is of no kind.
pub fn answer(record: &Record) -> Option<String> {
    let payload = record.payload;
    Some(match (record.kind, record.numbers.as_slice()) {
        ("N", &[lo, hi]) => value_text(read_number(payload, lo, hi)),
        ("P", &[]) => value_text(read_percentage(payload)),
        ("W", &[number, at, length]) => {
            let at = usize::try_from(at).ok()?;
            written_text(length, |buffer| {
                write_number(number, at, buffer).ok_or(Reason::ShortLoan)
            })
        }
        ("S", &[k]) => suffix_text(Suffix::read(payload, k)),
        ("T", &[bits, value, at, length]) => {
            let at = usize::try_from(at).ok()?;
            written_text(length, |buffer| write_handed(bits, value, at, buffer))
        }
        ("X", &[bits, value]) => place_text(Suffix::new(bits, value)),
        ("L", &[from]) => match usize::try_from(from)
            .ok()
            .and_then(|at| find_lf(payload, at))
        {
            Some(at) => format!("at {at}"),
            None => "none".to_string(),
        },
        ("F", &[]) => fields_text(payload),
        _ => return None,
    })
}

fn value_text(value: Option<u64>) -> String {
    value.map_or("bad".to_string(), |value| format!("value {value}"))
}

fn suffix_text(suffix: Option<Suffix>) -> String {
    suffix.map_or("bad".to_string(), |suffix| {
        let (length, value, place) = (suffix.length(), suffix.value(), suffix.place());
        format!("suffix {length} {value} {place}")
    })
}

fn place_text(suffix: Option<Suffix>) -> String {
    suffix.map_or("bad".to_string(), |suffix| {
        format!("place {}", suffix.place())
    })
}

fn fields_text(line: &[u8]) -> String {
    let ends = field_ends(line);
    let mut text = format!("fields {}", ends.len());
    for (start, end) in ends {
        text += &format!(" {start}-{end}");
    }
    text
}

/// Shows a buffer of `length` dots after a call that writes into it.
fn written_text(length: u64, write: impl Fn(&mut [u8]) -> Result<usize, Reason>) -> String {
    let mut buffer = vec![b'.'; length as usize];
    let end = write(&mut buffer);
    let text = String::from_utf8_lossy(&buffer);
    match end {
        Ok(end) => format!("end {end} {text}"),
        Err(Reason::ShortLoan) => format!("short {text}"),
        Err(_) => format!("bad {text}"),
    }
}

/// Adds all of them.
pub fn add_all(records: &mut Records) {
    let mut random = Random::new(1);
    numbers_at_limits(records);
    numbers_at_random(records, &mut random);
    percentages_listed(records);
    percentages_at_random(records, &mut random);
    numbers_written(records, &mut random);
    suffixes_read(records, &mut random);
    suffixes_of_any_k(records);
    suffixes_written(records, &mut random);
    no_suffixes(records, &mut random);
    places(records, &mut random);
    line_ends(records, &mut random);
    field_lists(records, &mut random);
}

/// The limits of document 01, of signed and of unsigned 64-bit numbers.
const LIMITS: [(u64, u64); 15] = [
    (1, 12),
    (1, 32),
    (1, 64),
    (1, 2_048),
    (0, 10_000),
    (0, 65_536),
    (0, FORMER_TOTAL),
    (0, MOST_TOTAL),
    (0, 0),
    (0, 1),
    (10, 99),
    (0, u64::MAX),
    (u64::MAX, u64::MAX),
    (0, i64::MAX as u64),
    (i64::MAX as u64 + 1, u64::MAX),
];

fn add_number(records: &mut Records, (lo, hi): (u64, u64), text: &[u8]) {
    records.add(&format!("N {lo} {hi}"), text);
}

/// Numbers each side of each limit, and the forms that are never numbers.
fn numbers_at_limits(records: &mut Records) {
    for limits in LIMITS {
        for edge in [limits.0, limits.1] {
            for near in [edge as i128 - 1, edge as i128, edge as i128 + 1] {
                add_number(records, limits, near.to_string().as_bytes());
                add_number(records, limits, format!("0{near}").as_bytes());
            }
        }
    }
    let every = (0, u64::MAX);
    for power in [63, 64] {
        for near in -12..=12i128 {
            let text = ((1i128 << power) + near).to_string();
            add_number(records, every, text.as_bytes());
        }
    }
    for length in [18, 19, 20, 21, 22, 40, 200] {
        for digit in b'0'..=b'9' {
            add_number(records, every, &vec![digit; length]);
        }
        let mut text = vec![b'0'; length];
        text[0] = b'1';
        add_number(records, every, &text);
    }
    for digit in [b'0', b'1', b'9'] {
        add_number(records, every, &vec![digit; 60_000]);
    }
    for byte in 0..=255u8 {
        add_number(records, every, &[byte]);
    }
    for text in [
        "", "00", "000", "+1", "-0", "-1", " 1", "1 ", "1\n", "1.", "0x1", "1e2", "1,000",
    ] {
        add_number(records, every, text.as_bytes());
    }
}

/// Numbers of every size, a third of them damaged.
fn numbers_at_random(records: &mut Records, random: &mut Random) {
    for turn in 0..400 {
        let mut limits = *random.pick(&LIMITS);
        let mut number = random.any_size();
        if random.once_in(2) {
            let other = random.any_size();
            limits = (number.min(other), number.max(other));
            number = number.wrapping_add(random.below(3)).wrapping_sub(1);
        }
        let mut text = number.to_string().into_bytes();
        if turn % 3 == 0 {
            text = random.damage(&text, b"0123456789/:.+- \n\0\xff");
        }
        add_number(records, limits, &text);
    }
}

/// Percentages named in document 01 and request 07, and each part at its limits.
fn percentages_listed(records: &mut Records) {
    let listed = "18.4.2 100.0000 100.0001 018.4 18. .4 18.40000 18.4 0 0.0 00 100 100.0 100.00000 \
        99.9999 99.99999 999 1000 000 0.0000 0.0001 0.00001 00.5 01 1.2.3 1..2 ..1 . .. 0. +1 -1 +0 -0.5 \
        1,5 101 101.0 100.1 100.9999 200 110 10 1 9 99 100.000 100.00 1e1 1.e1 0x1 1.5% 1.4/ 1.4: /1 :1 \
        1/ 1: 5./ 5.: 5.-1 5.+1 16.6667 33.3333 33.3334 50 25 12.5 3.125 18446744073709551616 \
        18446744073709551717.0 0.18446744073709551616 4294967297 429496730.0 100.65536 18.400000 18.4000000 \
        18.40000000 100.000000 100.000001 100.00001 100.0000000 100.0000001 100.999999 99.999999 99.9999999 \
        0.000001 0.0000001 0.000000 0.0000000 16.666667 33.333333 33.333334 16.66667 33.333 3.1250 3.125000 \
        3.1250000 0.390625 0.78125 18.4.200 18.40000.2 018.400000 7.000100 7.0001000 7.000010 7.0000100 \
        0.00000 00.000001 1.00000/ 1.00000: 1.000000x";
    for text in listed.split(' ').filter(|text| !text.is_empty()) {
        records.add("P", text.as_bytes());
    }
    for text in [
        "", " ", " 1", "1 ", "1. 5", "1 .5", "1.5 ", "1\n", "1.5\n", "1\0", "\u{661}",
    ] {
        records.add("P", text.as_bytes());
    }
    for whole in [
        "", "0", "00", "7", "07", "10", "42", "042", "99", "100", "101", "0100", "1234",
    ] {
        for decimals in 0..=8 {
            for digit in ["0", "9"] {
                let text = format!("{whole}.{}", digit.repeat(decimals));
                records.add("P", text.as_bytes());
            }
        }
    }
    records.add("P", &[b'1'; 60_000]);
    records.add("P", format!("1.{}", "0".repeat(2_000)).as_bytes());
}

/// Percentages of 0 to 8 decimals, often with zeros at the end, a third of them
/// damaged.
fn percentages_at_random(records: &mut Records, random: &mut Random) {
    for turn in 0..400 {
        let bound = *random.pick(&[1_200, 101, 101, 101, 101, 101]);
        let whole = random.below(bound);
        let digits = random.below(9) as usize;
        let zeros = match random.below(3) {
            0 => random.below(digits as u64 + 1) as usize,
            _ => 0,
        };
        let decimals = random.text(b"0123456789", digits - zeros);
        let decimals = String::from_utf8_lossy(&decimals).into_owned() + &"0".repeat(zeros);
        let text = match digits {
            0 => whole.to_string(),
            _ => format!("{whole}.{decimals}"),
        };
        let mut text = text.into_bytes();
        if turn % 3 == 0 {
            text = random.damage(&text, b"0123456789..//::+- \n\0");
        }
        records.add("P", &text);
    }
}

/// Positions that lie at, before and far past the end of a buffer.
fn position(random: &mut Random, length: u64) -> u64 {
    match random.below(8) {
        0 => length,
        1 => length + 1,
        2 => u64::MAX - random.below(24),
        3 => random.any_size(),
        4 => i64::MAX as u64 + random.below(3),
        _ => random.below(length + 1),
    }
}

fn numbers_written(records: &mut Records, random: &mut Random) {
    let mut numbers = vec![0, u64::MAX, u64::MAX - 1, 1 << 63, (1 << 63) - 1];
    for power in 0..20 {
        let ten = 10u64.pow(power);
        numbers.extend([ten - 1, ten, ten + 1]);
    }
    for &number in &numbers {
        let width = number.to_string().len() as u64;
        for (at, length) in [(0, width), (0, width - 1), (1, width), (3, width + 5)] {
            records.add(&format!("W {number} {at} {length}"), b"");
        }
    }
    for _ in 0..300 {
        let number = random.any_size();
        let length = random.below(41);
        let at = position(random, length);
        records.add(&format!("W {number} {at} {length}"), b"");
    }
}

fn suffixes_read(records: &mut Records, random: &mut Random) {
    for k in 0..=u64::from(MOST_BITS) {
        for length in 0..=14 {
            for alphabet in [&b"01"[..], b"0", b"1"] {
                let bits = random.text(alphabet, length);
                records.add(&format!("S {k}"), &[b"*", &bits[..]].concat());
            }
        }
        for text in [
            "", "0", "1", "**", "*2", "*/", "*0*", " *", "* ", "*\n", "*-1", "*.", "0*",
        ] {
            records.add(&format!("S {k}"), text.as_bytes());
        }
    }
    for _ in 0..200 {
        let length = random.below(13) as usize;
        let text = [b"*", &random.text(b"01", length)[..]].concat();
        let k = random.within(length as u64, u64::from(MOST_BITS));
        let text = random.damage(&text, b"01*/2 .\n\0\xff");
        records.add(&format!("S {k}"), &text);
    }
    let long = random.text(b"01", 59_999);
    records.add("S 12", &[b"*", &long[..]].concat());
}

/// Every k near its limits and far above them; no text is a suffix there.
fn suffixes_of_any_k(records: &mut Records) {
    for k in [0, 1, 12, 13, 14, 63, 64, 255, 256, 257, 268] {
        suffixes_of(records, k);
    }
    for k in [1 << 32, (1 << 32) + 5, 1 << 63, (1 << 63) + 12, u64::MAX] {
        suffixes_of(records, k);
    }
}

fn suffixes_of(records: &mut Records, k: u64) {
    for bits in ["", "0", "01", "111111111111", "0000000000000", "2"] {
        records.add(&format!("S {k}"), format!("*{bits}").as_bytes());
    }
    records.add(&format!("S {k}"), b"");
}

fn suffixes_written(records: &mut Records, random: &mut Random) {
    for bits in 0..=u64::from(MOST_BITS) {
        let top = (1 << bits) - 1;
        for value in [0, top, random.below(top + 1)] {
            for (at, length) in [(0, bits + 1), (0, bits), (1, bits + 1), (2, bits + 6)] {
                records.add(&format!("T {bits} {value} {at} {length}"), b"");
            }
        }
    }
    for _ in 0..250 {
        let bits = random.below(13);
        let value = random.below(1 << bits);
        let length = random.below(41);
        let at = position(random, length);
        records.add(&format!("T {bits} {value} {at} {length}"), b"");
    }
}

/// Lengths and values that make no suffix, next to those that just do, with
/// room and without.
fn no_suffixes(records: &mut Records, random: &mut Random) {
    let mut pairs = Vec::new();
    for bits in 0..=14 {
        let values = [(1 << bits) - 1, 1 << bits, (1 << bits) + 1, u64::MAX];
        pairs.extend(values.map(|value| (bits, value)));
    }
    for bits in [13, 16, 31, 32, 63, 64, 65, 76, 256, 1 << 32, u64::MAX] {
        pairs.extend([0, 1, 4_095, u64::MAX].map(|value| (bits, value)));
    }
    for (bits, value) in pairs {
        records.add(&format!("X {bits} {value}"), b"");
        for (at, length) in [(0, 15), (3, 8), (0, 0), (u64::MAX, 2)] {
            records.add(&format!("T {bits} {value} {at} {length}"), b"");
        }
    }
    for _ in 0..80 {
        let bits = match random.below(3) {
            0 => random.any_size(),
            _ => random.below(15),
        };
        let (value, length) = (random.any_size(), random.below(20));
        let at = position(random, length);
        records.add(&format!("X {bits} {value}"), b"");
        records.add(&format!("T {bits} {value} {at} {length}"), b"");
    }
}

/// Every suffix of up to 6 bits, and a spread of the longer ones.
fn places(records: &mut Records, random: &mut Random) {
    for bits in 0..=6 {
        for value in 0..1 << bits {
            records.add(&format!("X {bits} {value}"), b"");
        }
    }
    for bits in 7..=u64::from(MOST_BITS) {
        let mut values = vec![0, 1, 1 << (bits - 1), (1 << bits) - 1, (1 << bits) - 2];
        values.extend((0..70).map(|_| random.below(1 << bits)));
        for value in values {
            records.add(&format!("X {bits} {value}"), b"");
        }
    }
}

fn line_ends(records: &mut Records, random: &mut Random) {
    for text in [
        "",
        "\n",
        "a",
        "a\n",
        "\n\n",
        "ab\ncd\n",
        "\r\n",
        "\0\n\x0b\n",
    ] {
        for from in [
            0,
            1,
            2,
            3,
            5,
            6,
            7,
            u64::MAX,
            u64::MAX - 1,
            1 << 63,
            1 << 32,
        ] {
            records.add(&format!("L {from}"), text.as_bytes());
        }
    }
    for _ in 0..200 {
        let length = random.below(60) as usize;
        let text = random.text(b"ab \n\x0b\t\0\x8a\xff01", length);
        let from = position(random, length as u64);
        records.add(&format!("L {from}"), &text);
    }
    let mut long = vec![b'x'; 60_000];
    *long.last_mut().expect("not empty") = b'\n';
    records.add("L 7", &long);
}

fn field_lists(records: &mut Records, random: &mut Random) {
    for spaces in 0..=40 {
        records.add("F", &vec![b' '; spaces]);
    }
    for text in [
        "a",
        "a b",
        " a",
        "a ",
        "a  b",
        "SHEET 5 2 5",
        "1 *0 2",
        "a\tb",
        "\0 \0",
        "\u{a0}",
    ] {
        records.add("F", text.as_bytes());
    }
    for _ in 0..250 {
        let length = random.below(60) as usize;
        let text = random.text(b"  ab01*.\t\r\0\x1f!\xff", length);
        records.add("F", &text);
    }
    records.add("F", &random.text(b"0123456789", 20_000));
}
