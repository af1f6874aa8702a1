//! The commands of the program: what its words ask for, and what it prints for
//! the texts of its files.

use crate::calls::{churn, lookup, program};
use crate::gauges::fractions;
use crate::limits::{MOST_BYTES, MOST_MOVED, MOST_RULES};
use crate::numerals::{read_number, read_numeral};
use crate::rule_sheet::push_line;
use crate::stages::{stage, stages, Change};
use crate::suffix::Suffix;
use crate::update::update_sheets;
use std::ffi::OsStr;
use std::fmt::Display;
use std::fs::File;
use std::io::{self, Read};
use std::os::unix::ffi::OsStrExt;

/// What is told for words that are no command.
pub const USAGE: &str = "usage: twin [split SHEET]
       twin lookup TABLE SERVICE ADDRESS
       twin churn OLD NEW SERVICE
       twin update OLD SHEET SERVICE
       twin stages OLD NEW SERVICE LIMIT CAPACITY
       twin stage OLD NEW SERVICE LIMIT CAPACITY NUMBER
       twin gauge TABLE SERVICE VOLUME BACKEND
SHEET, TABLE, OLD and NEW are files, - is standard input (once); SERVICE, LIMIT,
CAPACITY, NUMBER and VOLUME are numbers, BACKEND is an id, ADDRESS is a number or
a dotted quad.";

/// The file name that stands for standard input.
const INPUT: &[u8] = b"-";

/// A command with its files and numbers.
#[derive(Clone, Copy, PartialEq, Eq, Debug)]
pub enum Command<'a> {
    Split {
        sheet: &'a [u8],
    },
    Lookup {
        table: &'a [u8],
        service: u64,
        address: u64,
    },
    Churn {
        old: &'a [u8],
        new: &'a [u8],
        service: u64,
    },
    Update {
        old: &'a [u8],
        sheet: &'a [u8],
        service: u64,
    },
    Stages(Cut<'a>),
    Stage(Cut<'a>, u64),
    Gauge {
        table: &'a [u8],
        service: u64,
        volume: u64,
        backend: u64,
    },
}

/// A change in stages, its tables by their files.
#[derive(Clone, Copy, PartialEq, Eq, Debug)]
pub struct Cut<'a> {
    old: &'a [u8],
    new: &'a [u8],
    service: u64,
    limit: u64,
    capacity: u64,
}

impl<'a> Cut<'a> {
    /// Nothing if a word is no numeral, or if standard input is named twice.
    fn of(old: &'a [u8], new: &'a [u8], words: [&[u8]; 3]) -> Option<Cut<'a>> {
        let [service, limit, capacity] = words;
        (old != INPUT || new != INPUT).then_some(())?;
        Some(Cut {
            old,
            new,
            service: read_numeral(service)?,
            limit: read_numeral(limit)?,
            capacity: read_numeral(capacity)?,
        })
    }

    /// What is printed of it, once both files are read.
    fn read(
        self,
        read: impl Fn(&[u8]) -> Result<Vec<u8>, String>,
        print: impl Fn(&Change) -> Vec<u8>,
    ) -> Result<Vec<u8>, String> {
        let (old, new) = (read(self.old)?, read(self.new)?);
        Ok(print(&Change {
            old: &old,
            new: &new,
            service: self.service,
            limit: self.limit,
            capacity: self.capacity,
        }))
    }
}

impl<'a> Command<'a> {
    /// What the words ask for; nothing if they are no command, if a number is
    /// no numeral, or if standard input is named twice.
    pub fn of(words: &[&'a [u8]]) -> Option<Command<'a>> {
        match *words {
            [] => Some(Command::Split { sheet: INPUT }),
            [b"split", sheet] => Some(Command::Split { sheet }),
            [b"lookup", table, service, address] => Some(Command::Lookup {
                table,
                service: read_numeral(service)?,
                address: read_address(address)?,
            }),
            [b"churn", old, new, service] if old != INPUT || new != INPUT => {
                let service = read_numeral(service)?;
                Some(Command::Churn { old, new, service })
            }
            [b"update", old, sheet, service] if old != INPUT || sheet != INPUT => {
                let service = read_numeral(service)?;
                Some(Command::Update {
                    old,
                    sheet,
                    service,
                })
            }
            [b"stages", old, new, service, limit, capacity] => {
                let cut = Cut::of(old, new, [service, limit, capacity])?;
                Some(Command::Stages(cut))
            }
            [b"stage", old, new, service, limit, capacity, number] => {
                let cut = Cut::of(old, new, [service, limit, capacity])?;
                Some(Command::Stage(cut, read_numeral(number)?))
            }
            [b"gauge", table, service, volume, backend] => Some(Command::Gauge {
                table,
                service: read_numeral(service)?,
                volume: read_numeral(volume)?,
                backend: read_numeral(backend)?,
            }),
            _ => None,
        }
    }

    /// What is printed; all files are read before any is looked at.
    pub fn run(self, read: impl Fn(&[u8]) -> Result<Vec<u8>, String>) -> Result<Vec<u8>, String> {
        Ok(match self {
            Command::Split { sheet } => program(&read(sheet)?),
            Command::Lookup {
                table,
                service,
                address,
            } => line_of(lookup(&read(table)?, service, address)),
            Command::Churn { old, new, service } => {
                let (old, new) = (read(old)?, read(new)?);
                line_of(churn(&old, &new, service))
            }
            Command::Update {
                old,
                sheet,
                service,
            } => {
                let (old, sheet) = (read(old)?, read(sheet)?);
                updated(&old, &sheet, service)
            }
            Command::Stages(cut) => cut.read(read, places)?,
            Command::Stage(cut, number) => cut.read(read, |change| lines(change, number))?,
            Command::Gauge {
                table,
                service,
                volume,
                backend,
            } => line_of(fractions(&read(table)?, service, volume, backend)),
        })
    }
}

/// The answer or the refusal on a line.
fn line_of<T: Display, E: Display>(answer: Result<T, E>) -> Vec<u8> {
    match answer {
        Ok(answer) => format!("{answer}\n"),
        Err(refusal) => format!("{refusal}\n"),
    }
    .into_bytes()
}

/// The measures of an update on a line, then the new list as in a rule sheet; or
/// the refusal.
fn updated(old: &[u8], sheet: &[u8], service: u64) -> Vec<u8> {
    let mut list = [0; 3 * MOST_RULES as usize];
    let (k, made) = match update_sheets(old, sheet, service, &mut list) {
        Ok(answer) => answer,
        Err(refusal) => return format!("{refusal}\n").into_bytes(),
    };
    let (keep, rules, churn) = (made.keep, made.rules, made.churn);
    let mut text = format!("UPDATE {k} {keep} {rules} {churn}\n").into_bytes();
    let (list, _) = list[..3 * rules].as_chunks::<3>();
    for &[length, value, backend] in list {
        let suffix = Suffix::new(length, value).expect("a rule has a suffix");
        push_line(service, suffix, backend, &mut text);
    }
    text
}

/// The places at which a change is cut, one on a line; or the refusal.
fn places(change: &Change) -> Vec<u8> {
    // Each stage but the last moves a suffix, and there are no more.
    let mut row = [0; MOST_MOVED as usize];
    match stages(change, &mut row) {
        Ok(count) => row[..count]
            .iter()
            .flat_map(|place| format!("{place}\n").into_bytes())
            .collect(),
        Err(refusal) => format!("{refusal}\n").into_bytes(),
    }
}

/// The lines of one stage of a change; or the refusal.
fn lines(change: &Change, number: u64) -> Vec<u8> {
    let mut text = vec![0; MOST_BYTES];
    match stage(change, number, &mut text) {
        Ok(length) => text.truncate(length),
        Err(refusal) => text = format!("{refusal}\n").into_bytes(),
    }
    text
}

/// An address: a number, or a dotted quad, which begins with the highest byte.
fn read_address(word: &[u8]) -> Option<u64> {
    read_numeral(word).or_else(|| {
        let bytes: Option<Vec<u64>> = word
            .split(|&byte| byte == b'.')
            .map(|part| read_number(part, 0, 255))
            .collect();
        let quad = <[u64; 4]>::try_from(bytes?).ok()?;
        Some(quad.iter().fold(0, |address, byte| 256 * address + byte))
    })
}

/// The text of a file, or why there is none; of a text over its limit one byte
/// more than that.
pub fn read_file(name: &[u8]) -> Result<Vec<u8>, String> {
    let read = |file: &mut dyn Read| -> io::Result<Vec<u8>> {
        let mut text = Vec::new();
        file.take(MOST_BYTES as u64 + 1).read_to_end(&mut text)?;
        Ok(text)
    };
    let text = match name {
        INPUT => read(&mut io::stdin()),
        _ => File::open(OsStr::from_bytes(name)).and_then(|mut file| read(&mut file)),
    };
    text.map_err(|error| format!("{}: {error}", String::from_utf8_lossy(name)))
}

#[cfg(test)]
mod tests {
    use super::*;

    const RULES: &str = "TABLE 5 5 29333392000\n1 *0 2\n1 * 3\n2 *00 2\n2 *0 1\n2 * 3\n";

    const SHEET: &str =
        "SHEET 5 2 5\nSERVICE 55 1:16.6667 2:33.3333 3:50\nSERVICE 45 1:25 2:25 3:50\n";

    fn command(words: &str) -> Option<Command<'_>> {
        let words: Vec<&[u8]> = words.split(' ').map(str::as_bytes).collect();
        Command::of(&words)
    }

    /// What is printed where the file `-` is the sample's rule sheet, `n` one with
    /// another backend, `s` its percentage sheet, `x` has nothing in it, and no
    /// other file is there.
    fn said(words: &str) -> Result<String, String> {
        let read = |name: &[u8]| match name {
            b"-" => Ok(RULES.as_bytes().to_vec()),
            b"n" => Ok(RULES.replace("*0 1", "*0 4").into_bytes()),
            b"s" => Ok(SHEET.as_bytes().to_vec()),
            b"x" => Ok(Vec::new()),
            _ => Err("no file".to_string()),
        };
        let printed = command(words).ok_or("usage")?.run(read)?;
        Ok(String::from_utf8(printed).unwrap())
    }

    #[test]
    fn what_is_printed() {
        assert_eq!(said("lookup - 1 0").unwrap(), "2\n");
        assert_eq!(said("lookup - 2 0.0.0.2").unwrap(), "1\n");
        assert_eq!(said("lookup - 3 4294967296").unwrap(), "REFUSED 8 0\n");
        assert_eq!(said("lookup - 2 4294967296").unwrap(), "REFUSED 2 0\n");
        assert_eq!(said("lookup x 2 4294967296").unwrap(), "REFUSED 1 1\n");
        assert_eq!(said("churn - x 1").unwrap(), "REFUSED 1 1 2\n");
        assert_eq!(said("split x").unwrap(), "REFUSED 1 1\n");
        assert_eq!(said("split -").unwrap(), "REFUSED 1 1\n");
        for service in ["0", "65", "18446744073709551617", &"7".repeat(99)] {
            let words = format!("lookup - {service} 1.2.3.4");
            assert_eq!(said(&words).unwrap(), "REFUSED 8 0\n");
        }
    }

    #[test]
    fn updates_are_printed_with_their_lines() {
        for (words, expected) in [
            ("update - s 2", "UPDATE 5 3 3 0\n2 *00 2\n2 *0 1\n2 * 3\n"),
            ("update - s 1", "REFUSED 13 0 0\n"),
            ("update - s 3", "REFUSED 8 0 1\n"),
            ("update - - 2", "usage"),
            ("update s - 2", "REFUSED 1 1 1\n"),
            ("update - x 2", "REFUSED 1 1 2\n"),
            ("update x x 2", "REFUSED 1 1 1\n"),
        ] {
            let printed = said(words).unwrap_or_else(|message| message);
            assert_eq!(printed, expected, "{words}");
        }
    }

    /// Service 2 of the sample has, by place, 2 and 1 in turn and then 3; in `n` it
    /// has 4 in place of 1.
    #[test]
    fn stages_are_printed_by_their_places_and_lines() {
        let (first, last) = (
            "2 *00 2\n2 *010 4\n2 *110 1\n2 *1 3\n",
            "2 *00 2\n2 *10 4\n2 *1 3\n",
        );
        let long = "18446744073709551617".repeat(9);
        for (words, expected) in [
            ("stages - n 2 4 4", "12\n32\n"),
            ("stages - n 2 8 3", "32\n"),
            ("stages - n 2 4096 2048", "32\n"),
            ("stages - n 1 1 2", "32\n"),
            ("stages n - 2 4 4", "12\n32\n"),
            ("stages - n 2 4 3", "REFUSED 14 0 0\n"),
            ("stages - n 2 0 3", "REFUSED 2 0 0\n"),
            ("stages - n 2 4 2049", "REFUSED 2 0 0\n"),
            ("stages - n 3 0 0", "REFUSED 8 0 1\n"),
            ("stages x n 3 0 0", "REFUSED 1 1 1\n"),
            ("stages n x 3 0 0", "REFUSED 1 1 2\n"),
            ("stages n n 2 1 3", "32\n"),
            ("stage - n 2 4 4 1", first),
            ("stage - n 2 4 4 2", last),
            ("stage - n 2 8 3 1", last),
            ("stage - n 2 4 4 3", "REFUSED 2 0 0\n"),
            ("stage - n 2 4 3 0", "REFUSED 2 0 0\n"),
            ("stage - n 2 4 3 1", "REFUSED 14 0 0\n"),
            ("stage - n 2 4 4 18446744073709551617", "REFUSED 2 0 0\n"),
            (&format!("stage - n 2 4 4 {long}"), "REFUSED 2 0 0\n"),
            (&format!("stages - n 2 4 {long}"), "REFUSED 2 0 0\n"),
            (&format!("stages - n 2 {long} 4"), "REFUSED 2 0 0\n"),
            (
                &format!("stages - n {long} {long} {long}"),
                "REFUSED 8 0 1\n",
            ),
        ] {
            assert_eq!(said(words).unwrap(), expected, "{words}");
        }
    }

    #[test]
    fn gauges_are_printed_as_exact_decimals() {
        for (words, expected) in [
            ("gauge - 1 55 1", "0 0"),
            ("gauge - 1 55 2", "0.5 27.5"),
            ("gauge - 2 45 1", "0.25 11.25"),
            ("gauge - 2 10000 3", "0.5 5000"),
            ("gauge - 2 0 3", "0.5 0"),
            ("gauge - 2 10001 3", "REFUSED 2 0"),
            ("gauge - 2 1 0", "REFUSED 2 0"),
            ("gauge - 2 1 33", "0 0"),
            ("gauge - 2 1 9999", "0 0"),
            ("gauge - 2 1 10000", "REFUSED 2 0"),
            ("gauge - 3 10001 10000", "REFUSED 8 0"),
            ("gauge x 3 10001 33", "REFUSED 1 1"),
        ] {
            assert_eq!(said(words).unwrap(), format!("{expected}\n"), "{words}");
        }
        let long = "18446744073709551617".repeat(9);
        for (words, expected) in [
            (format!("gauge - {long} 1 1"), "REFUSED 8 0"),
            (format!("gauge - 1 {long} 1"), "REFUSED 2 0"),
            (format!("gauge - 1 1 {long}"), "REFUSED 2 0"),
            (format!("gauge - 9 {long} {long}"), "REFUSED 8 0"),
            (format!("gauge x {long} {long} {long}"), "REFUSED 1 1"),
        ] {
            assert_eq!(said(&words).unwrap(), format!("{expected}\n"), "{words}");
        }
    }

    #[test]
    fn a_file_that_is_not_there_comes_before_a_refused_sheet() {
        for words in [
            "churn x y 1",
            "churn y x 1",
            "update x y 1",
            "update y x 1",
            "stages x y 1 0 0",
            "stages y x 1 0 0",
            "stage x y 1 0 0 0",
            "stage y x 1 0 0 0",
            "lookup y 1 1",
            "split y",
            "gauge y 1 1 1",
            "gauge y 0 10001 33",
        ] {
            assert_eq!(said(words), Err("no file".to_string()));
        }
    }

    #[test]
    fn words_that_are_no_command() {
        for words in [
            "",
            "spli",
            "split x x",
            "lookup",
            "lookup x 1",
            "lookup x 1 1 1",
            "lookup x 01 1",
            "lookup x 1 ",
            "lookup x +1 1",
            "churn x 1",
            "churn x x 1 1",
            "churn x x 1.0",
            "churn - - 1",
            "update",
            "update x 1",
            "update x x 1 1",
            "update x x 01",
            "update x x +1",
            "update - - 1",
            "stages",
            "stages x x 1 1",
            "stages x x 1 1 1 1",
            "stages - - 1 1 1",
            "stages x x 01 1 1",
            "stages x x 1 -1 1",
            "stages x x 1 1 1.0",
            "stage x x 1 1 1",
            "stage x x 1 1 1 1 1",
            "stage - - 1 1 1 1",
            "stage x x x 1 1 1",
            "stage x x 1 00 1 1",
            "stage x x 1 1 +1 1",
            "stage x x 1 1 1 ",
            "gauge",
            "gauge x 1 1",
            "gauge x 1 1 1 1",
            "gauge x 01 1 1",
            "gauge x 1 1.0 1",
            "gauge x 1 1 +1",
            "gauge x 1 1 ",
            "gauge x x 1 1",
        ] {
            assert_eq!(command(words), None, "{words:?}");
        }
        assert_eq!(Command::of(&[]), command("split -"));
        assert_eq!(command("split"), None);
    }

    #[test]
    fn addresses() {
        for (word, address) in [
            ("0", 0),
            ("4294967296", 1 << 32),
            ("0.0.0.0", 0),
            ("1.2.3.4", 0x0102_0304),
            ("255.255.255.255", 0xffff_ffff),
        ] {
            assert_eq!(read_address(word.as_bytes()), Some(address));
        }
        assert_eq!(read_address(&[b'9'; 70]), Some(u64::MAX));
        for word in [
            "",
            ".",
            "...",
            "1.2.3",
            "1.2.3.4.5",
            "1.2.3.",
            ".1.2.3",
            "1..2.3",
            "1.2.3.256",
            "256.2.3.4",
            "01.2.3.4",
            "1.2.3.00",
            "1.2.3.4 ",
            "1.2.3.+4",
            "1.2.3.18446744073709551616",
            "0x1",
            "-1",
        ] {
            assert_eq!(read_address(word.as_bytes()), None, "{word:?}");
        }
    }
}
