//! Tests of what the vectors show of request 07: weights and tolerances of six
//! decimals and of fewer, sums that just miss the whole, and the largest totals.

use super::expansion::{numbers, rows_text};
use super::percentage_sheets::hostile;
use super::records::{take_record, Record, Records};
use super::shapes::{FORMER_TOTAL, FOURTH};
use super::{answer, each_answered};
use crate::limits::MOST_TOTAL;
use crate::numerals::{read_percentage, DECIMALS, PERCENT, WHOLE};
use std::collections::{BTreeMap, BTreeSet};

/// The kinds of vectors that have weights, by layer and letter.
const KINDS: [(&str, &str); 7] = [
    ("expansion", "E"),
    ("packing", "Q"),
    ("sheets", "R"),
    ("sheets", "B"),
    ("sheets", "P"),
    ("update", "L"),
    ("update", "T"),
];

/// A vector that has weights, in rows of numbers or in a percentage sheet.
struct Weighed {
    kind: (&'static str, &'static str),
    numbers: Vec<u64>,
    payload: String,
    tolerance: u64,
    /// Those of each service.
    weights: Vec<Vec<u64>>,
    answer: String,
}

impl Weighed {
    /// Nothing if the record has no weights, or some that can't be read.
    fn of(record: &Record, answer: &str) -> Option<Weighed> {
        let is = |kind: &&(&str, &str)| **kind == (record.layer, record.kind);
        let kind = *KINDS.iter().find(is)?;
        let payload = std::str::from_utf8(record.payload).ok()?;
        let (tolerance, weights) = match in_rows(kind) {
            true => (record.numbers[1], weights_of_rows(kind, payload)?),
            false => of_sheet(payload)?,
        };
        Some(Weighed {
            kind,
            numbers: record.numbers.clone(),
            payload: payload.to_string(),
            tolerance,
            weights,
            answer: answer.to_string(),
        })
    }

    fn made(&self) -> bool {
        !self.answer.to_lowercase().starts_with("refused")
    }

    /// Whether it was refused for a sum.
    fn unbalanced(&self) -> bool {
        !self.made() && self.answer.split(' ').nth(1) == Some("3")
    }

    /// What is answered with other weights.
    fn answered_with(&self, weights: &[Vec<u64>]) -> String {
        let weights = weights.concat();
        let payload = match in_rows(self.kind) {
            true => {
                let (others, _) = self.payload.trim_end().rsplit_once('\n').unwrap();
                format!("{others}\n{}", rows_text(&[&weights]))
            }
            false => sheet_with(&self.payload, &weights),
        };
        let numbers: String = self.numbers.iter().map(|n| format!(" {n}")).collect();
        let mut records = Records::default();
        records.begin(self.kind.0);
        records.add(&format!("{}{numbers}", self.kind.1), payload.as_bytes());
        answer(records.bytes()).unwrap().trim_end().to_string()
    }

    /// What the answer says of rules: no stair, total, grant or ending.
    fn rules(&self, answer: &str) -> String {
        let behind = |mark| answer.split_once(mark).map_or("", |(_, rest)| rest);
        match self.kind.1 {
            "E" => {
                let rules = answer.split(' ').skip(2);
                rules.flat_map(|rule| rule.split(':').next()).collect()
            }
            "Q" => behind(" lines ").to_string(),
            "R" | "B" => behind("/").to_string(),
            "P" => behind(" table ").to_string(),
            _ => behind(" rules ").to_string(),
        }
    }
}

/// Whether the weights are a row of numbers, the last one.
fn in_rows(kind: (&str, &str)) -> bool {
    matches!(kind.1, "E" | "Q" | "L")
}

/// The weights of each service; an order of several has their sizes in its second
/// row.
fn weights_of_rows(kind: (&str, &str), text: &str) -> Option<Vec<Vec<u64>>> {
    let rows: Vec<&str> = text.strip_suffix('\n')?.split('\n').collect();
    let mut weights = numbers(rows.last()?)?;
    if kind.1 != "Q" {
        return Some(vec![weights]);
    }
    let mut services = Vec::new();
    for size in numbers(rows[1])? {
        let rest = weights.split_off(weights.len().min(size as usize));
        services.push(std::mem::replace(&mut weights, rest));
    }
    Some(services)
}

/// The tolerance and the weights of each service of a sheet, which may have a rule
/// sheet in front of it.
fn of_sheet(text: &str) -> Option<(u64, Vec<Vec<u64>>)> {
    let (_, sheet) = text.split_once("SHEET ")?;
    let mut lines = sheet.lines();
    let tolerance = lines.next()?.split(' ').nth(1)?;
    let percentage = |field: &str| read_percentage(field.split_once(':')?.1.as_bytes());
    let weights = |line: &str| line.split(' ').skip(2).map(percentage).collect();
    let weights: Option<Vec<Vec<u64>>> = lines.map(weights).collect();
    Some((read_percentage(tolerance.as_bytes())?, weights?))
}

/// The sheet with these weights behind its colons.
fn sheet_with(text: &str, weights: &[u64]) -> String {
    let mut weights = weights.iter();
    let field = |field: &str| match field.split_once(':') {
        None => field.to_string(),
        Some((id, old)) => {
            let weight = weights.next().unwrap();
            let end = &old[old.len() - 1..];
            let (whole, part) = (weight / PERCENT, weight % PERCENT);
            format!("{id}:{whole}.{part:0DECIMALS$}{end}")
        }
    };
    text.split_inclusive([' ', '\n']).map(field).collect()
}

fn weighed() -> Vec<Weighed> {
    let mut found = Vec::new();
    each_answered(|record, line| found.extend(Weighed::of(record, line)));
    found
}

/// How many decimals a number needs as a percentage.
fn decimals(number: u64) -> usize {
    let digits = format!("{:0DECIMALS$}", number % PERCENT);
    digits.trim_end_matches('0').len()
}

#[test]
fn weights_and_tolerances_have_every_number_of_decimals() {
    let all = weighed();
    for kind in KINDS {
        let (mut weights, mut tolerances) = ([0; DECIMALS + 1], [0; DECIMALS + 1]);
        for vector in all.iter().filter(|vector| vector.kind == kind) {
            if vector.made() {
                let most = vector
                    .weights
                    .iter()
                    .flatten()
                    .map(|&weight| decimals(weight));
                weights[most.max().unwrap()] += 1;
                tolerances[decimals(vector.tolerance)] += 1;
            }
        }
        for counts in [weights, tolerances] {
            for places in [0, 4, 5, 6] {
                assert!(counts[places] > 2, "{kind:?} {counts:?}");
            }
        }
    }
}

/// The nearest weights of four decimals that sum to the whole: each is cut, and what
/// is left goes to those that lost most.
fn nearest(weights: &[u64]) -> Vec<u64> {
    let cut = weights.iter().map(|weight| weight - weight % FOURTH);
    let mut near: Vec<u64> = cut.collect();
    let left = (WHOLE - near.iter().sum::<u64>()) / FOURTH;
    let mut places: Vec<usize> = (0..weights.len()).collect();
    places.sort_by_key(|&place| FOURTH - weights[place] % FOURTH);
    for &place in &places[..left as usize] {
        near[place] += FOURTH;
    }
    near
}

#[test]
fn four_decimals_would_make_other_rules() {
    let thirds = [33_333_333, 33_333_334, 33_333_333];
    assert_eq!(nearest(&thirds), [33_333_300, 33_333_400, 33_333_300]);
    assert_eq!(nearest(&[49, WHOLE - 49]), [0, WHOLE]);
    let mut others = BTreeMap::new();
    for vector in weighed() {
        let fine = vector
            .weights
            .iter()
            .flatten()
            .any(|weight| weight % FOURTH > 0);
        if !vector.made() || !fine {
            continue;
        }
        assert_eq!(vector.answered_with(&vector.weights), vector.answer);
        let near: Vec<Vec<u64>> = vector.weights.iter().map(|row| nearest(row)).collect();
        let near = vector.answered_with(&near);
        let unlike = vector.rules(&near) != vector.rules(&vector.answer);
        *others.entry(vector.kind).or_insert(0) += u32::from(unlike);
    }
    assert!(KINDS.iter().all(|kind| others[kind] > 4), "{others:?}");
}

#[test]
fn sums_miss_the_whole_by_one_and_by_a_hundred() {
    let all = weighed();
    for kind in KINDS {
        let refused = all
            .iter()
            .filter(|vector| vector.kind == kind && vector.unbalanced());
        let rows = refused.flat_map(|vector| &vector.weights);
        let sums: BTreeSet<u64> = rows.map(|weights| weights.iter().sum()).collect();
        for sum in [WHOLE - FOURTH, WHOLE - 1, WHOLE + 1, WHOLE + FOURTH] {
            assert!(sums.contains(&sum), "{kind:?} {sum}");
        }
    }
}

/// The total of a rule sheet or of a table in numbers, if the record is of this kind
/// and the total a number.
fn total_of(record: &Record, kind: &str) -> Option<u64> {
    match (record.layer, record.kind) {
        ("sheets", "W") if kind == "W" => Some(record.numbers[1]),
        ("sheets", "U") if kind == "U" => {
            let text = String::from_utf8_lossy(record.payload);
            text.lines().next()?.split(' ').nth(3)?.parse().ok()
        }
        _ => None,
    }
}

#[test]
fn totals_at_the_former_and_the_new_limit() {
    for kind in ["U", "W"] {
        let (mut read, mut refused) = (BTreeSet::new(), BTreeSet::new());
        each_answered(|record, line| {
            let found = match line.starts_with("REFUSED") {
                true => &mut refused,
                false => &mut read,
            };
            found.extend(total_of(record, kind));
        });
        for total in [FORMER_TOTAL, MOST_TOTAL] {
            assert!(
                read.contains(&(total - 1)) && read.contains(&total),
                "{kind}"
            );
        }
        assert!(read.contains(&(FORMER_TOTAL + 1)), "{kind}");
        assert!(refused.contains(&(MOST_TOTAL + 1)), "{kind}");
        assert_eq!(read.last(), Some(&MOST_TOTAL), "{kind}");
        assert!(read.range(FORMER_TOTAL + 1..).count() > 10, "{kind}");
    }
}

/// 64 services of volume 10,000 with 32 like weights each, and one rule: 31 parts of
/// 32 of the limit. No sheet has more, as the `*` goes to the largest weight.
#[test]
fn sheets_have_the_largest_total_and_those_around_the_former_limit() {
    let largest = MOST_TOTAL / 32 * 31;
    assert_eq!(largest, 253_952_000_000_000_000);
    let all = weighed();
    for (letter, words) in [
        ("Q", format!("total {largest} ")),
        ("R", format!("TABLE 12 64 {largest}/")),
        ("P", format!("made 12 64 64 {largest} ")),
    ] {
        let mut of_kind = all.iter().filter(|vector| vector.kind.1 == letter);
        assert!(of_kind.any(|vector| vector.answer.starts_with(&words)));
    }
    for total in [FORMER_TOTAL - 4_096, FORMER_TOTAL, FORMER_TOTAL + 4_096] {
        let words = format!("TABLE 12 3 {total}/");
        assert!(all.iter().any(|vector| vector.answer.starts_with(&words)));
    }
}

#[test]
fn spoilt_sheets_have_percentages_of_every_number_of_decimals() {
    let records = hostile(5, 4_000);
    let mut counts = [0; 9];
    let mut file = records.bytes();
    while !file.is_empty() {
        let record = take_record(&mut file).unwrap();
        for field in record.payload.split(|byte| b" \n:".contains(byte)) {
            let dot = field.iter().position(|&byte| byte == b'.');
            let places = dot.map_or(0, |dot| field.len() - dot - 1);
            counts[places.min(8)] += 1;
        }
    }
    assert!(counts.iter().all(|&count| count > 50), "{counts:?}");
}
