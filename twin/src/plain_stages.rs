//! Request 06 once more, straight from the document and without haste: each list
//! is made from all suffixes, each place is tried, and each churn is counted over
//! all k-bit suffixes.

use crate::rule_sheet;
use crate::stages::Change;
use crate::table::Table;
use std::collections::BTreeSet;

/// The backend of each s from 0 to 2^k - 1 before and after a change.
pub struct Plain {
    k: u8,
    old: Vec<u16>,
    new: Vec<u16>,
}

/// The k bits of s read from the last to the first.
fn place_of(k: u8, s: usize) -> u64 {
    (0..k).fold(0, |place, bit| 2 * place + (s as u64 >> bit & 1))
}

impl Plain {
    /// Of two sheets of like k that aren't refused and have the service.
    pub fn of(change: &Change) -> Plain {
        let [old, new] = [change.old, change.new].map(|text| rule_sheet::read(text).unwrap());
        let all = |table: &Table| {
            let first = |s| table.backend(change.service, s).unwrap();
            (0..1 << table.k).map(first).collect()
        };
        Plain {
            k: old.k,
            old: all(&old),
            new: all(&new),
        }
    }

    fn last(&self) -> u64 {
        1 << self.k
    }

    /// The backend of each s in the stage at a place.
    fn stage(&self, place: u64) -> Vec<u16> {
        let backend = |s: usize| match place_of(self.k, s) < place {
            true => self.new[s],
            false => self.old[s],
        };
        (0..self.old.len()).map(backend).collect()
    }

    fn churn(&self, from: u64, to: u64) -> u64 {
        let (from, to) = (self.stage(from), self.stage(to));
        (0..from.len()).filter(|&s| from[s] != to[s]).count() as u64
    }

    /// Each place is the largest within the limit from the one before.
    pub fn row(&self, limit: u64) -> Vec<u64> {
        let (mut row, mut from) = (Vec::new(), 0);
        while from < self.last() {
            let within = |&place: &u64| self.churn(from, place) <= limit;
            from = (0..=self.last()).rev().find(within).unwrap();
            row.push(from);
        }
        row
    }

    /// The fewest stages of any row within the limit, whether it ascends or not:
    /// all places that one stage reaches, then two, and so on.
    pub fn fewest(&self, limit: u64) -> usize {
        let mut reached = BTreeSet::from([0]);
        let mut stages = 0;
        loop {
            stages += 1;
            let near = |&place: &u64| reached.iter().any(|&from| self.churn(from, place) <= limit);
            reached = (0..=self.last()).filter(near).collect();
            if reached.contains(&self.last()) {
                return stages;
            }
        }
    }

    /// The fewest stages of any row of ascending places within the limit, where
    /// each bit of a number says whether a place is in the row.
    pub fn fewest_ascending(&self, limit: u64) -> usize {
        let rows = 0..1u64 << (self.last() - 1);
        let within = |row: u64| {
            let inner = (1..self.last()).filter(|place| row >> (place - 1) & 1 == 1);
            let places: Vec<u64> = [0].into_iter().chain(inner).chain([self.last()]).collect();
            let fits = |pair: &[u64]| self.churn(pair[0], pair[1]) <= limit;
            places.windows(2).all(fits).then_some(places.len() - 1)
        };
        rows.filter_map(within).min().unwrap()
    }

    /// The lines of the stage at a place, without the service: each suffix that one
    /// backend holds and that is no part of a larger such one.
    pub fn list(&self, place: u64) -> Vec<String> {
        let stage = self.stage(place);
        let covered = |length: u8, value: usize| {
            (0..stage.len()).filter(move |s| s & ((1 << length) - 1) == value)
        };
        let holder = |length: u8, value: usize| {
            let holders: BTreeSet<u16> = covered(length, value).map(|s| stage[s]).collect();
            (holders.len() == 1)
                .then(|| holders.first().copied())
                .flatten()
        };
        let mut lines = Vec::new();
        for length in 0..=self.k {
            for value in 0..1 << length {
                let larger = |longer: u8| holder(longer, value & ((1 << longer) - 1)).is_some();
                let (Some(backend), false) = (holder(length, value), (0..length).any(larger))
                else {
                    continue;
                };
                let places = covered(length, value).map(|s| place_of(self.k, s));
                let bits: String = (0..length)
                    .rev()
                    .map(|bit| ["0", "1"][value >> bit & 1])
                    .collect();
                lines.push((places.min(), format!("*{bits} {backend}")));
            }
        }
        lines.sort();
        lines.into_iter().map(|(_, line)| line).collect()
    }

    /// The most lines of a stage of the row.
    pub fn most_lines(&self, limit: u64) -> u64 {
        let lines = self
            .row(limit)
            .into_iter()
            .map(|place| self.list(place).len());
        lines.max().unwrap() as u64
    }
}

/// The number of the refusal of two sheets that aren't refused, have the service
/// and are of like k, a short loan aside.
pub fn refused(change: &Change, number: Option<u64>) -> Option<u8> {
    let (limits, capacities) = (1..=4_096, 1..=2_048);
    if !limits.contains(&change.limit) || !capacities.contains(&change.capacity) {
        return Some(2);
    }
    let plain = Plain::of(change);
    let stages = plain.row(change.limit).len() as u64;
    if number.is_some_and(|number| !(1..=stages).contains(&number)) {
        return Some(2);
    }
    (plain.most_lines(change.limit) > change.capacity).then_some(14)
}
