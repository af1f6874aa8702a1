//! Test vectors: the files `stdin` (the vectors) and `stdout` (the answers).

mod asks;
pub mod cases;
mod changes;
mod choices;
mod counts;
#[cfg(test)]
mod decimals;
pub mod expansion;
mod gauges;
mod known;
pub mod loaded;
pub mod numerals;
pub mod packing;
pub mod percentage_sheets;
mod plans;
pub mod records;
mod rows;
mod rule_sheets;
pub mod several;
pub mod shapes;
pub mod sheets;
pub mod spoil;
mod stages;
mod updates;
mod writes;

use records::{take_record, Record, Records};
use std::path::Path;

/// How the vectors of one layer are made and answered.
struct Layer {
    name: &'static str,
    add_all: fn(&mut Records),
    answer: fn(&Record) -> Option<String>,
}

const LAYERS: [Layer; 7] = [
    Layer {
        name: "numerals",
        add_all: numerals::add_all,
        answer: numerals::answer,
    },
    Layer {
        name: "expansion",
        add_all: expansion::add_all,
        answer: expansion::answer,
    },
    Layer {
        name: "packing",
        add_all: packing::add_all,
        answer: packing::answer,
    },
    Layer {
        name: "sheets",
        add_all: sheets::add_all,
        answer: sheets::answer,
    },
    Layer {
        name: "gauges",
        add_all: gauges::add_all,
        answer: gauges::answer,
    },
    Layer {
        name: "update",
        add_all: updates::add_all,
        answer: updates::answer,
    },
    Layer {
        name: "t",
        add_all: stages::add_all,
        answer: stages::answer,
    },
];

/// All vectors, layer by layer.
fn records() -> Records {
    let mut records = Records::default();
    for layer in &LAYERS {
        records.begin(layer.name);
        (layer.add_all)(&mut records);
    }
    records
}

fn answer_one(record: &Record) -> Option<String> {
    let layer = LAYERS.iter().find(|layer| layer.name == record.layer)?;
    (layer.answer)(record)
}

/// Answers a file of vectors, one line for each.
pub fn answer(mut file: &[u8]) -> Result<String, String> {
    let mut answers = String::new();
    let mut number = 0;
    while !file.is_empty() {
        number += 1;
        let line = take_record(&mut file).and_then(|record| answer_one(&record));
        answers += &line.ok_or_else(|| format!("record {number} is of no kind"))?;
        answers.push('\n');
    }
    Ok(answers)
}

/// Writes both files into a folder and returns how many records.
pub fn write(folder: &Path) -> Result<usize, String> {
    let records = records();
    let answers = answer(records.bytes())?;
    let write = |file: &str, bytes: &[u8]| std::fs::write(folder.join(file), bytes);
    std::fs::create_dir_all(folder)
        .and_then(|()| write("stdin", records.bytes()))
        .and_then(|()| write("stdout", answers.as_bytes()))
        .map_err(|error| error.to_string())?;
    Ok(records.count())
}

/// Each vector with its answer. They are made once for all tests.
#[cfg(test)]
fn each_answered(mut tell: impl FnMut(&Record, &str)) {
    use std::sync::OnceLock;
    static ALL: OnceLock<(Records, String)> = OnceLock::new();
    let (records, answers) = ALL.get_or_init(|| {
        let records = records();
        let answers = answer(records.bytes()).unwrap();
        (records, answers)
    });
    let mut file = records.bytes();
    for line in answers.lines() {
        tell(&take_record(&mut file).unwrap(), line);
    }
}

#[cfg(test)]
mod tests {
    use super::*;

    /// The answer to one record.
    fn said(layer: &'static str, header: &str, payload: &str) -> String {
        let mut records = Records::default();
        records.begin(layer);
        records.add(header, payload.as_bytes());
        answer(records.bytes()).unwrap()
    }

    #[test]
    fn what_makes_no_suffix_is_bad() {
        let said = |header, payload| said("numerals", header, payload);
        assert_eq!(said("S 1", "*0"), "suffix 1 0 0\n");
        assert_eq!(said("S 0", "*"), "bad\n");
        assert_eq!(said("S 13", "*"), "bad\n");
        assert_eq!(said("X 12 4095", ""), "place 4095\n");
        assert_eq!(said("X 12 4096", ""), "bad\n");
        assert_eq!(said("X 13 0", ""), "bad\n");
        assert_eq!(said("T 2 3 1 5", ""), "end 4 .*11.\n");
        assert_eq!(said("T 2 3 1 3", ""), "short ...\n");
        assert_eq!(said("T 2 4 1 3", ""), "bad ...\n");
        assert_eq!(said("T 18446744073709551615 0 0 0", ""), "bad \n");
    }

    #[test]
    fn a_count_is_of_one_id() {
        let said = |header| said("sheets", header, "TABLE 2 2 0\n1 *01 9999\n1 * 3\n");
        assert_eq!(said("C 1 9999"), "share 2 1\n");
        assert_eq!(said("C 1 3"), "share 2 3\n");
        assert_eq!(said("C 1 1"), "share 2 0\n");
        assert_eq!(said("C 1 10000"), "REFUSED 2 0\n");
        assert_eq!(said("C 2 10000"), "REFUSED 8 0\n");
    }

    #[test]
    fn lists_take_ids_beside_weights() {
        let said = |payload| said("expansion", "E 1 0 32", payload);
        let list = "within 2 *>7:100000000 *0>9999:0\n";
        assert_eq!(said("7 9999\n50000000 50000000\n"), list);
        assert_eq!(said("7\n50000000 50000000\n"), "refused 1\n");
        assert_eq!(said("\n\n"), "refused 2\n");
    }

    #[test]
    fn a_table_in_numbers_shows_its_whole_buffer() {
        let said = |header, payload| said("sheets", header, payload);
        assert_eq!(
            said("W 5 0 20", "1 0 0 2"),
            "end 18 TABLE 5 1 0/1 * 2/......\n"
        );
        assert_eq!(said("W 5 0 2", "1 0 0 2"), "REFUSED 7 0 ......\n");
        assert_eq!(said("W 5 0 2", "1 0 0 2 1"), "REFUSED 1 0 ......\n");
        assert_eq!(said("W 0 0 2", "1 0 0 2 1"), "REFUSED 2 0 ......\n");
        assert_eq!(said("W 0 0 2", "1 65536 0 2"), "REFUSED 11 0 ......\n");
        assert_eq!(said("W 5 0 0", ""), "REFUSED 2 0 ....\n");
    }

    #[test]
    fn rows_are_packed() {
        let said = |payload| said("packing", "Q 1 0 9", payload);
        assert_eq!(
            said("7 8\n2 1\n3 9999 1\n50000000 50000000 100000000\n"),
            "total 0 grants 2 1 lines 1 *0 9999,1 * 3,2 * 1\n"
        );
        assert_eq!(said("\n\n\n\n"), "refused 5\n");
        assert_eq!(said("\n\n\n1\n"), "refused 1\n");
        assert_eq!(said("\n\n1\n\n"), "refused 1\n");
    }

    #[test]
    fn new_weights_show_their_whole_buffer() {
        let behind = " 77777".repeat(4);
        let half = "1 0 9999 0 0 1\n1 9999\n75000000 25000000\n";
        let updated = |header, payload| said("update", header, payload);
        assert_eq!(
            updated("L 2 0 7", half),
            format!("made 1 2 1 rules 2 0 9999 0 0 1 77777{behind}\n")
        );
        let nothing = updated("L 2 0 1", "\n\n\n");
        assert_eq!(nothing, format!("refused 2 rules 77777{behind}\n"));
        assert_eq!(
            updated("L 2 0 6", half),
            format!("made 1 2 1 rules 2 0 9999 0 0 1{behind}\n")
        );
        assert_eq!(
            updated(
                "T 1 24 3",
                "TABLE 2 1 0\n1 * 1\nSHEET 2 0 1\nSERVICE 1 1:100\n"
            ),
            format!("REFUSED 1 3 1 rules 77777 77777 77777{behind}\n")
        );
        assert_eq!(
            updated(
                "T 1 18 3",
                "TABLE 2 1 0\n1 * 1\nSHEET 2 0 1\nSERVICE 1 1:100\n"
            ),
            format!("made 2 1 1 0 rules 0 0 1{behind}\n")
        );
    }

    #[test]
    fn stages_show_their_buffers_or_a_sum() {
        let (sheets, line) = ("TABLE 1 1 0\n1 * 1\nTABLE 1 1 0\n1 * 9\n", "1 2 1\n");
        let said = |header, line: &str| said("t", header, &format!("{line}{sheets}"));
        let behind = " 77777".repeat(4);
        assert_eq!(
            said("P 1 18 3", line),
            format!("made 2 row 1 2 77777{behind}\n")
        );
        assert_eq!(
            said("P 1 18 1", line),
            format!("REFUSED 7 0 0 row 77777{behind}\n")
        );
        assert_eq!(
            said("P 1 18 0", "1 1 0\n"),
            format!("REFUSED 14 0 0 row{behind}\n")
        );
        let sum = 1 + 2 * 2 + 77_777 * (3..=65).sum::<u64>();
        assert_eq!(said("P 1 18 61", line), format!("made 2 sum {sum}\n"));
        assert_eq!(said("L 1 18 15", line), "made 14 1 *0 9/1 *1 1/.....\n");
        assert_eq!(said("L 1 18 13", line), "REFUSED 7 0 0 .................\n");
        assert_eq!(said("L 1 17 0", line), "REFUSED 1 2 1 ....\n");
        assert_eq!(said("L 1 18 0", "1 2 3\n"), "REFUSED 2 0 0 ....\n");
        let bytes = b"1 * 9\n".iter().chain([b'.'; 299].iter()).zip(1..);
        let sum: u64 = bytes.map(|(&byte, place)| u64::from(byte) * place).sum();
        assert_eq!(said("L 1 18 301", "2 1 1\n"), format!("made 6 sum {sum}\n"));
    }

    /// The words before the buffer in the answers of one kind, with headers.
    fn answers_of(kind: &str) -> Vec<(Vec<u64>, String)> {
        let mut found = Vec::new();
        each_answered(|record, line| {
            if format!("{} {}", record.layer, record.kind) == kind {
                let words = line.split(" rules ").next().unwrap();
                found.push((record.numbers.clone(), words.to_string()));
            }
        });
        found
    }

    #[test]
    fn vectors_of_new_weights_have_every_answer() {
        let updates = answers_of("update L");
        for keep in 1..=32 {
            let made = format!("made {keep} ");
            assert!(updates.iter().any(|(_, words)| words.starts_with(&made)));
            let whole = format!("made {keep} {keep} 0");
            assert!(updates.iter().any(|(_, words)| *words == whole));
        }
        for k in 1..=12 {
            for start in ["made ", "refused 13"] {
                let found =
                    |(head, words): &(Vec<u64>, String)| head[0] == k && words.starts_with(start);
                assert!(updates.iter().any(found), "{k} {start}");
            }
        }
        for number in [1, 2, 3, 4, 7, 9, 13] {
            let refused = format!("refused {number}");
            assert!(
                updates.iter().any(|(_, words)| *words == refused),
                "{number}"
            );
        }
        assert!(updates.iter().all(|(head, _)| *head.last().unwrap() <= 100));
    }

    #[test]
    fn vectors_of_two_sheets_tell_each_refusal_of_each_sheet() {
        let sheets = (1..=12).flat_map(|number| [(number, 0), (number, 1), (number, 2)]);
        let told = answers_of("update T");
        for (number, which) in sheets {
            let (start, end) = (format!("REFUSED {number} "), format!(" {which}"));
            let found = told
                .iter()
                .any(|(_, words)| words.starts_with(&start) && words.ends_with(&end));
            let about = match number {
                1 | 2 | 4 | 5 | 8 | 11 => which > 0,
                3 | 6 => which == 2,
                9 | 10 => which == 1,
                _ => which == 0,
            };
            assert_eq!(found, about, "{number} {which}");
        }
    }

    /// The most bytes of all answers: the tool that tries the test program without a
    /// proof stops at a mebibyte of output.
    const MOST_ANSWERS: usize = 1_040_000;

    #[test]
    fn the_answers_stay_under_a_mebibyte() {
        let mut bytes = 0;
        each_answered(|_, line| bytes += line.len() + 1);
        assert!(bytes <= MOST_ANSWERS, "{bytes}");
    }

    #[test]
    fn each_record_has_one_answer_line_and_the_bytes_never_change() {
        let (once, twice) = (records(), records());
        assert_eq!(once.bytes(), twice.bytes());
        let answers = answer(once.bytes()).unwrap();
        assert_eq!(answers.lines().count(), once.count());
    }
}
