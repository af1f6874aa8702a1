//! Sheets that are spoilt at random: bytes, fields or lines.

use crate::numerals::DECIMALS;
use crate::random::Random;

/// Bytes that stand in sheets or next to those that do.
const BYTES: &[u8] = b"0123456789 .\n:::*SERVICHTABL/;+-\r\t\0\xff\x0b";

/// Fields that are at some limit, or of no form.
const FIELDS: [&str; 93] = [
    "",
    "0",
    "1",
    "2",
    "00",
    "01",
    "12",
    "13",
    "31",
    "32",
    "33",
    "63",
    "64",
    "65",
    "100",
    "101",
    "2047",
    "2048",
    "2049",
    "9999",
    "10000",
    "10001",
    "65536",
    "1000000",
    "100000000",
    "2621440000000000",
    "2621440000000001",
    "262144000000000000",
    "262144000000000001",
    "18446744073709551616",
    "18446744073709551617",
    "4294967297",
    "257",
    "100.0",
    "100.0000",
    "100.0001",
    "100.00000",
    "100.000000",
    "100.0000000",
    "100.000001",
    "18.4.2",
    "018.4",
    "18.",
    ".4",
    "18.40000",
    "18.400000",
    "18.4000000",
    "18.4",
    "0.0001",
    "0.00001",
    "0.000001",
    "0.0000001",
    "0.0",
    "99.9999",
    "99.999999",
    "50",
    "-1",
    "+1",
    "1e1",
    "*",
    "*0",
    "*1",
    "*01",
    "*000000000000",
    "*0000000000000",
    "*2",
    "**",
    "0*",
    "SERVICE",
    "SHEET",
    "TABLE",
    "1:50",
    "1:100",
    "9999:0",
    "9999:50",
    "10000:50",
    "0:50",
    "01:50",
    ":50",
    ":",
    "5:",
    "5:50:",
    "5::50",
    "1:2:3",
    "2:18.4.2",
    "2:100.0001",
    "2:100.000001",
    "2:18.40000",
    "2:18.4000000",
    "2:33.333333",
    "+1:50",
    "1.0:50",
    "65537:50",
];

/// Ids, most of them at some limit or of no form.
const IDS: [&str; 17] = [
    "0",
    "1",
    "2",
    "9",
    "9998",
    "9999",
    "10000",
    "00",
    "01",
    "0009",
    "",
    ":",
    "+1",
    "x",
    "65537",
    "4294967297",
    "18446744073709551617",
];

/// A sheet with one to three things wrong, or by chance still right.
pub fn spoil(random: &mut Random, text: &[u8]) -> Vec<u8> {
    let mut text = text.to_vec();
    for _ in 0..*random.pick(&[1, 1, 1, 2, 3]) {
        text = match random.below(8) {
            0..=2 => random.damage(&text, BYTES),
            3 => spoil_field(random, &text),
            4 => spoil_backend(random, &text),
            5 => spoil_line(random, &text),
            6 => spoil_decimals(random, &text),
            _ => spoil_colon(random, &text),
        };
    }
    text
}

/// Puts another id in front of a percentage, or exchanges, doubles or bares it;
/// a line without percentages gets another id as its last field.
fn spoil_backend(random: &mut Random, text: &[u8]) -> Vec<u8> {
    let mut lines: Vec<Vec<u8>> = text.split(|&b| b == b'\n').map(<[u8]>::to_vec).collect();
    let line = random.below(lines.len() as u64) as usize;
    let mut fields: Vec<Vec<u8>> = lines[line]
        .split(|&b| b == b' ')
        .map(<[u8]>::to_vec)
        .collect();
    let named: Vec<usize> = (0..fields.len())
        .filter(|&at| fields[at].contains(&b':'))
        .collect();
    let id = random.pick(&IDS).as_bytes().to_vec();
    if named.is_empty() {
        *fields.last_mut().expect("a line has a field") = id;
    } else {
        let (at, other) = (*random.pick(&named), *random.pick(&named));
        let parts: Vec<&[u8]> = fields[at].splitn(2, |&b| b == b':').collect();
        let own = fields[other]
            .split(|&b| b == b':')
            .next()
            .unwrap_or_default()
            .to_vec();
        match random.below(6) {
            0 | 1 => fields[at] = [&id, &b":"[..], parts[1]].concat(),
            2 | 3 => fields[at] = [&own, &b":"[..], parts[1]].concat(),
            4 => fields[at] = parts[random.below(2) as usize].to_vec(),
            _ => fields.swap(at, other),
        }
    }
    lines[line] = fields.join(&b' ');
    lines.join(&b'\n')
}

/// Gives a percentage more decimals, up to two more than it may have, most often
/// zeros; a text without percentages gets another field.
fn spoil_decimals(random: &mut Random, text: &[u8]) -> Vec<u8> {
    let ends: Vec<usize> = (0..text.len())
        .filter(|&at| matches!(text[at], b' ' | b'\n') && is_percentage(field_before(text, at)))
        .collect();
    if ends.is_empty() {
        return spoil_field(random, text);
    }
    let end = *random.pick(&ends);
    let field = field_before(text, end);
    let dot = field.iter().position(|&byte| byte == b'.');
    let decimals = dot.map_or(0, |dot| field.len() - dot - 1);
    let most = (DECIMALS + 2).saturating_sub(decimals).max(1);
    let more = random.within(1, most as u64) as usize;
    let digits = match random.below(3) {
        0 => random.text(b"0123456789", more),
        _ => vec![b'0'; more],
    };
    let point: &[u8] = if dot.is_none() { b"." } else { b"" };
    [&text[..end], point, &digits, &text[end..]].concat()
}

/// The field that ends there.
fn field_before(text: &[u8], end: usize) -> &[u8] {
    let before = text[..end].iter().rposition(|byte| b" \n".contains(byte));
    &text[before.map_or(0, |at| at + 1)..end]
}

/// Whether a field has a percentage: it has a colon or a dot.
fn is_percentage(field: &[u8]) -> bool {
    field.iter().any(|byte| b":.".contains(byte))
}

/// Leaves a colon out, doubles it or makes it a space; a text without one gets
/// one.
fn spoil_colon(random: &mut Random, text: &[u8]) -> Vec<u8> {
    let mut text = text.to_vec();
    let colons: Vec<usize> = (0..text.len()).filter(|&at| text[at] == b':').collect();
    if colons.is_empty() {
        text.insert(random.below(text.len() as u64 + 1) as usize, b':');
        return text;
    }
    let at = *random.pick(&colons);
    match random.below(4) {
        0 => drop(text.remove(at)),
        1 => text.insert(at, b':'),
        2 => text[at] = b' ',
        _ => {
            let next = (at + 1).min(text.len() - 1);
            text.swap(at, next);
        }
    }
    text
}

/// Replaces, doubles, drops or empties one field of one line.
fn spoil_field(random: &mut Random, text: &[u8]) -> Vec<u8> {
    let mut lines: Vec<Vec<u8>> = text.split(|&b| b == b'\n').map(<[u8]>::to_vec).collect();
    let line = random.below(lines.len() as u64) as usize;
    let mut fields: Vec<&[u8]> = lines[line].split(|&b| b == b' ').collect();
    let at = random.below(fields.len() as u64) as usize;
    match random.below(6) {
        0 => fields.insert(at, fields[at]),
        1 => drop(fields.remove(at)),
        _ => fields[at] = random.pick(&FIELDS).as_bytes(),
    }
    lines[line] = fields.join(&b' ');
    lines.join(&b'\n')
}

/// Doubles, drops, swaps, empties or cuts a line.
fn spoil_line(random: &mut Random, text: &[u8]) -> Vec<u8> {
    let mut lines: Vec<&[u8]> = text.split_inclusive(|&b| b == b'\n').collect();
    if lines.is_empty() {
        return b"\n".to_vec();
    }
    let at = random.below(lines.len() as u64) as usize;
    let other = random.below(lines.len() as u64) as usize;
    match random.below(6) {
        0 => lines.insert(at, lines[at]),
        1 => drop(lines.remove(at)),
        2 => lines.swap(at, other),
        3 => lines.insert(at, b"\n"),
        4 => lines.truncate(at + 1),
        _ => lines.insert(at, lines[other]),
    }
    lines.concat()
}

/// Numbers at some limit of a table's lines, or far above it.
const NUMBERS: [u64; 18] = [
    0,
    1,
    2,
    11,
    12,
    13,
    32,
    33,
    64,
    65,
    255,
    256,
    4_096,
    9_999,
    10_000,
    1 << 32,
    1 << 63,
    u64::MAX,
];

/// One to three things wrong in a table's numbers, four for each line, or by
/// chance nothing.
pub fn spoil_numbers(random: &mut Random, numbers: &mut Vec<u64>) {
    for _ in 0..*random.pick(&[1, 1, 1, 2, 3]) {
        if numbers.len() < 4 {
            return;
        }
        let at = random.below(numbers.len() as u64) as usize;
        match random.below(8) {
            0..=3 => numbers[at] = *random.pick(&NUMBERS),
            4 if random.once_in(2) => drop(numbers.remove(at)),
            4 => numbers.truncate(at),
            _ => spoil_lines(random, numbers),
        }
    }
}

/// Drops a line, repeats it or exchanges it with another one.
fn spoil_lines(random: &mut Random, numbers: &mut Vec<u64>) {
    let mut lines: Vec<&[u64]> = numbers.chunks(4).collect();
    let at = random.below(lines.len() as u64) as usize;
    let other = random.below(lines.len() as u64) as usize;
    match random.below(4) {
        0 => drop(lines.remove(at)),
        1 => lines.swap(at, other),
        2 => lines.insert(at, lines[other]),
        _ => {
            let times = *random.pick(&[2, 31, 32]);
            lines.splice(at..at, vec![lines[at]; times]);
        }
    }
    *numbers = lines.concat();
}
