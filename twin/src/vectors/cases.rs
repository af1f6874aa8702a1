//! Calls of the program with words and files that are damaged at random: for
//! each call a folder with its files, standard input and words.

use super::loaded::two_sheets;
use super::percentage_sheets::small;
use super::rule_sheets::{some_service, table};
use super::shapes::{rule_table, sheet_text};
use super::spoil::spoil;
use crate::limits::{MOST_CAPACITY, MOST_ID, MOST_MOVED, MOST_VOLUME};
use crate::random::Random;
use crate::rule_sheet::text_of;
use crate::table::Table;
use std::io;
use std::path::Path;

/// One call: its words, the files `first` and `second`, and standard input.
#[derive(Clone, Default, PartialEq, Eq, Debug)]
struct Case {
    words: Vec<Vec<u8>>,
    first: Vec<u8>,
    second: Vec<u8>,
    input: Vec<u8>,
}

/// Writes the folders `1`, `2`, .. of as many calls as asked, other ones for
/// each seed. The file `words` has a NUL after each word.
pub fn write(seed: u64, count: usize, folder: &Path) -> io::Result<()> {
    let mut random = Random::new(seed);
    for number in 1..=count {
        let folder = folder.join(number.to_string());
        std::fs::create_dir_all(&folder)?;
        let case = case(&mut random);
        let words: Vec<u8> = case
            .words
            .iter()
            .flat_map(|word| [word, &b"\0"[..]].concat())
            .collect();
        for (name, bytes) in [
            ("first", &case.first),
            ("second", &case.second),
            ("input", &case.input),
            ("words", &words),
        ] {
            std::fs::write(folder.join(name), bytes)?;
        }
    }
    Ok(())
}

/// A call of one of the commands; one in eight has spoilt words.
fn case(random: &mut Random) -> Case {
    let mut case = match random.below(16) {
        0 => split(random),
        1..=3 => lookup(random),
        4..=6 => churn(random),
        7..=9 => update(random),
        10..=12 => stages(random),
        _ => gauge(random),
    };
    if random.once_in(8) {
        spoil_words(random, &mut case.words);
    }
    case
}

/// A percentage sheet, in a file or on standard input.
fn split(random: &mut Random) -> Case {
    let order = small(random);
    let text = sheet_text(random, &order);
    let mut case = Case {
        first: damaged(random, text),
        ..Case::default()
    };
    match random.below(4) {
        0 => case.input = std::mem::take(&mut case.first),
        1 => {
            case.words = vec![b"split".to_vec()];
            case.input = std::mem::take(&mut case.first);
        }
        _ => {
            case.words = vec![b"split".to_vec(), b"first".to_vec()];
            rename(random, &mut case);
        }
    }
    case
}

/// An address of a service in a rule sheet.
fn lookup(random: &mut Random) -> Case {
    let table = table(random);
    let words = vec![
        b"lookup".to_vec(),
        b"first".to_vec(),
        service_word(random, &table),
        address_word(random),
    ];
    let mut case = Case {
        words,
        first: damaged(random, text_of(&table)),
        ..Case::default()
    };
    rename(random, &mut case);
    case
}

/// The gauges of a backend of a service in a rule sheet.
fn gauge(random: &mut Random) -> Case {
    let table = table(random);
    let words = vec![
        b"gauge".to_vec(),
        b"first".to_vec(),
        service_word(random, &table),
        volume_word(random),
        backend_word(random, &table),
    ];
    let mut case = Case {
        words,
        first: damaged(random, text_of(&table)),
        ..Case::default()
    };
    rename(random, &mut case);
    case
}

/// Two rule sheets, most of them of like k; now and then one file or standard
/// input twice.
fn churn(random: &mut Random) -> Case {
    let old = table(random);
    let new = match random.below(6) {
        0 => table(random),
        1 => old.clone(),
        _ => rule_table(random, u64::from(old.k), 4),
    };
    let mut words = vec![b"churn".to_vec(), b"first".to_vec(), b"second".to_vec()];
    words.push(service_word(random, &old));
    match random.below(40) {
        0 => words[1..3].fill(b"-".to_vec()),
        1 | 2 => words[2] = b"first".to_vec(),
        _ => (),
    }
    let mut case = Case {
        words,
        first: damaged(random, text_of(&old)),
        second: damaged(random, text_of(&new)),
        ..Case::default()
    };
    rename(random, &mut case);
    case
}

/// A rule sheet and new weights for its services; now and then one file or
/// standard input twice.
fn update(random: &mut Random) -> Case {
    let (old, new) = two_sheets(random);
    let mut words = vec![b"update".to_vec(), b"first".to_vec(), b"second".to_vec()];
    words.push(service_word(random, &old));
    match random.below(40) {
        0 => words[1..3].fill(b"-".to_vec()),
        1 => words[2] = b"first".to_vec(),
        2 => words[1..3].reverse(),
        _ => (),
    }
    let sheet = sheet_text(random, &new);
    let mut case = Case {
        words,
        first: damaged(random, text_of(&old)),
        second: damaged(random, sheet),
        ..Case::default()
    };
    rename(random, &mut case);
    case
}

/// Two rule sheets as for churn and where the change is cut, or one stage of it.
fn stages(random: &mut Random) -> Case {
    let mut case = churn(random);
    let numbers = [
        stage_word(random, &[8, 64, MOST_MOVED], MOST_MOVED),
        stage_word(random, &[16, MOST_CAPACITY], MOST_CAPACITY),
        stage_word(random, &[1, 2, 5], 64),
    ];
    let (command, count) = *random.pick(&[("stages", 2), ("stage", 3)]);
    case.words[0] = command.as_bytes().to_vec();
    case.words.extend(numbers.into_iter().take(count));
    case
}

/// A number up to one of these, at a limit, or beyond it.
fn stage_word(random: &mut Random, tops: &[u64], limit: u64) -> Vec<u8> {
    let top = *random.pick(tops);
    let number = match random.below(12) {
        0 => *random.pick(&[0, 1, limit, limit + 1]),
        _ => random.within(1, top),
    };
    numeral_word(random, number)
}

/// A sheet as it is, spoilt, with many lines, empty, of the other kind, or as
/// long as texts may be and a little longer.
fn damaged(random: &mut Random, mut text: Vec<u8>) -> Vec<u8> {
    match random.below(40) {
        0..=25 => text,
        26..=34 => spoil(random, &text),
        35 | 36 => with_many(random, &text),
        37 => Vec::new(),
        38 => {
            let order = small(random);
            sheet_text(random, &order)
        }
        _ => {
            let length = random.within(65_535, 65_538) as usize;
            text.resize(length, *random.pick(b"1 \n"));
            text
        }
    }
}

/// The sheet with its second line up to 65 times.
fn with_many(random: &mut Random, text: &[u8]) -> Vec<u8> {
    let lines: Vec<&[u8]> = text.split_inclusive(|&byte| byte == b'\n').collect();
    let times = *random.pick(&[2, 31, 32, 33, 64, 65]);
    [lines[0], &lines[1].repeat(times), &lines[2..].concat()].concat()
}

/// Names of no file, and other names of those that are there.
const NAMES: [&[u8]; 8] = [
    b"none",
    b"",
    b".",
    b"first/none",
    b"\xff",
    b"./-",
    b"./first",
    b".//second",
];

/// Now and then another name for the first or the second file: standard input,
/// with that file's text, or what is no file.
fn rename(random: &mut Random, case: &mut Case) {
    let names: Vec<usize> = (1..case.words.len().min(3)).collect();
    let at = *random.pick(&names);
    let name: &[u8] = match random.below(24) {
        0..=4 => {
            case.input = match case.words[at].as_slice() {
                b"first" => case.first.clone(),
                b"second" => case.second.clone(),
                _ => return,
            };
            b"-"
        }
        5 | 6 => random.pick::<&[u8]>(&NAMES),
        _ => return,
    };
    case.words[at] = name.to_vec();
}

/// Words that are numerals or nearly so.
const NUMERALS: [&str; 24] = [
    "0",
    "1",
    "2",
    "64",
    "65",
    "256",
    "257",
    "9999",
    "10000",
    "4294967295",
    "4294967296",
    "4294967297",
    "18446744073709551615",
    "18446744073709551616",
    "18446744073709551617",
    "340282366920938463463374607431768211457",
    "",
    "00",
    "01",
    "+1",
    "-1",
    "1 ",
    "1.0",
    "x",
];

/// A service of the table, most often.
fn service_word(random: &mut Random, table: &Table) -> Vec<u8> {
    let service = some_service(random, table).to_string().into_bytes();
    match random.below(10) {
        0 => random.pick(&NUMERALS).as_bytes().to_vec(),
        1 => damaged_word(random, &service),
        _ => service,
    }
}

/// A volume, most often within its limits.
fn volume_word(random: &mut Random) -> Vec<u8> {
    let volume = match random.below(4) {
        0 => *random.pick(&[0, 1, MOST_VOLUME - 1, MOST_VOLUME, MOST_VOLUME + 1]),
        _ => random.below(MOST_VOLUME + 1),
    };
    numeral_word(random, volume)
}

/// A backend of the table or any other, most often within its limits.
fn backend_word(random: &mut Random, table: &Table) -> Vec<u8> {
    let backend = match random.below(8) {
        0 => *random.pick(&[0, 1, 2, MOST_ID - 1, MOST_ID, MOST_ID + 1]),
        1 => random.within(1, MOST_ID),
        _ => u64::from(random.pick(&table.lines).rule.backend),
    };
    numeral_word(random, backend)
}

/// The number as a word; now and then a damaged one, another numeral or one of
/// any length.
fn numeral_word(random: &mut Random, number: u64) -> Vec<u8> {
    let word = number.to_string().into_bytes();
    match random.below(16) {
        0 => random.pick(&NUMERALS).as_bytes().to_vec(),
        1 => damaged_word(random, &word),
        2 => {
            let length = random.within(0, 60) as usize;
            random.text(b"0123456789", length)
        }
        _ => word,
    }
}

/// An address: a number or a dotted quad, now and then a damaged one.
fn address_word(random: &mut Random) -> Vec<u8> {
    let quad = |random: &mut Random| {
        let bytes = [(); 4].map(|()| random.below(256).to_string());
        bytes.join(".").into_bytes()
    };
    match random.below(12) {
        0..=3 => random.below(1 << 32).to_string().into_bytes(),
        4 | 5 => random.below(1 << 34).to_string().into_bytes(),
        6..=8 => quad(random),
        9 => {
            let quad = quad(random);
            damaged_word(random, &quad)
        }
        10 => random.pick(&NUMERALS).as_bytes().to_vec(),
        _ => {
            let length = random.within(0, 60) as usize;
            random.text(b"0123456789", length)
        }
    }
}

/// The word with one byte changed, put in, left out, doubled or cut off.
fn damaged_word(random: &mut Random, word: &[u8]) -> Vec<u8> {
    random.damage(word, b"0123456789..+- x/:\n\xff")
}

/// A word left out, doubled, put in, exchanged or damaged.
fn spoil_words(random: &mut Random, words: &mut Vec<Vec<u8>>) {
    let at = random.below(words.len() as u64 + 1) as usize;
    let other = random.below(words.len() as u64 + 1) as usize;
    match random.below(6) {
        0 if at < words.len() => drop(words.remove(at)),
        1 if at < words.len() => words.insert(at, words[at].clone()),
        2 if at.max(other) < words.len() => words.swap(at, other),
        3 if at < words.len() => words[at] = damaged_word(random, &words[at]),
        4 => words.truncate(at),
        _ => {
            let names = [
                "", "1", "-", "first", "split", "lookup", "churn", "update", "gauge", "stages",
                "stage", "Split",
            ];
            words.insert(at, random.pick(&names).as_bytes().to_vec());
        }
    }
}

#[cfg(test)]
mod tests {
    use super::*;
    use crate::commands::Command;
    use std::collections::BTreeSet;

    /// What the twin prints; nothing if it has a message to tell.
    fn printed(case: &Case) -> Option<String> {
        let words: Vec<&[u8]> = case.words.iter().map(Vec::as_slice).collect();
        let read = |name: &[u8]| match name {
            b"first" | b"./first" => Ok(case.first.clone()),
            b"second" | b".//second" => Ok(case.second.clone()),
            b"-" => Ok(case.input.clone()),
            _ => Err(String::new()),
        };
        let bytes = Command::of(&words)?.run(read).ok()?;
        String::from_utf8(bytes).ok()
    }

    #[test]
    fn gauges_of_every_kind() {
        let mut random = Random::new(53);
        let mut refusals = BTreeSet::new();
        let (mut silent, mut answers, mut inputs) = (0, 0, 0);
        for _ in 0..1_500 {
            let case = gauge(&mut random);
            inputs += u64::from(case.words[1] == b"-");
            match printed(&case) {
                None => silent += 1,
                Some(text) if text.starts_with("REFUSED ") => drop(refusals.insert(text)),
                Some(_) => answers += 1,
            }
        }
        assert!(silent > 200 && answers > 400, "{silent} {answers}");
        assert!(inputs > 50, "{inputs}");
        for refusal in ["1 1", "2 0", "2 2", "4 34", "8 0", "9 3", "10 1", "11 0"] {
            assert!(
                refusals.contains(&format!("REFUSED {refusal}\n")),
                "{refusal}"
            );
        }
    }

    #[test]
    fn updates_of_every_kind() {
        let mut random = Random::new(59);
        let mut refusals = BTreeSet::new();
        let (mut silent, mut answers) = (0, 0);
        for _ in 0..3_000 {
            match printed(&update(&mut random)) {
                None => silent += 1,
                Some(text) if text.starts_with("REFUSED ") => drop(refusals.insert(text)),
                Some(text) => {
                    assert!(text.starts_with("UPDATE "));
                    answers += 1;
                }
            }
        }
        assert!(silent > 300 && answers > 350, "{silent} {answers}");
        for refusal in [
            "1 1 1", "1 1 2", "2 2 1", "2 2 2", "3 2 2", "5 1 2", "6 1 2", "8 0 1", "8 0 2",
            "10 1 1", "11 0 1", "11 0 2", "12 0 0", "13 0 0",
        ] {
            let line = format!("REFUSED {refusal}\n");
            assert!(refusals.contains(&line), "{refusal}");
        }
    }

    #[test]
    fn stages_of_every_kind() {
        let mut random = Random::new(61);
        let mut refusals = BTreeSet::new();
        let (mut silent, mut rows, mut lists) = (0, 0, 0);
        for _ in 0..4_000 {
            let case = stages(&mut random);
            match printed(&case) {
                None => silent += 1,
                Some(text) if text.starts_with("REFUSED ") => drop(refusals.insert(text)),
                Some(_) if case.words[0] == b"stages" => rows += 1,
                Some(_) => lists += 1,
            }
        }
        assert!(silent > 400, "{silent}");
        assert!(rows > 200 && lists > 60, "{rows} {lists}");
        for refusal in [
            "1 1 1", "1 1 2", "2 0 0", "2 2 1", "2 2 2", "4 34 1", "4 34 2", "8 0 1", "8 0 2",
            "10 1 1", "10 1 2", "11 0 1", "11 0 2", "12 0 0", "14 0 0",
        ] {
            let line = format!("REFUSED {refusal}\n");
            assert!(refusals.contains(&line), "{refusal}");
        }
    }

    #[test]
    fn cases_of_every_kind() {
        let mut random = Random::new(41);
        let mut refusals = BTreeSet::new();
        let (mut silent, mut answers) = (0, 0);
        for _ in 0..3_200 {
            let case = case(&mut random);
            assert!(case.words.iter().all(|word| !word.contains(&0)));
            match printed(&case) {
                None => silent += 1,
                Some(text) => match text.strip_prefix("REFUSED ") {
                    None => answers += 1,
                    Some(rest) => drop(refusals.insert(rest[..2].trim().to_string())),
                },
            }
        }
        let seen: Vec<&str> = refusals.iter().map(String::as_str).collect();
        assert_eq!(
            seen,
            ["1", "10", "11", "12", "13", "14", "2", "3", "4", "5", "6", "8", "9"]
        );
        assert!(silent > 500 && answers > 600, "{silent} {answers}");
    }
}
