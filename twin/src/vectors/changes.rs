//! Changes that vectors ask to be cut into stages: listed ones, refused ones, and
//! ones of every shape made at random.

use super::expansion::suffix_text;
use super::loaded::any_list;
use super::shapes::{ids, renamed, rule_table};
use crate::expansion::Rule;
use crate::limits::{MOST_BYTES, MOST_CAPACITY, MOST_MOVED};
use crate::random::Random;
use crate::rule_sheet::text_of;
use crate::stages::{counted, stage, Change};
use crate::suffix::Suffix;
use crate::table::{RuleLine, Table};

/// A change as two sheets, what is asked beside them, and the number of a stage.
#[derive(Clone, Debug)]
pub struct Ask {
    pub old: Vec<u8>,
    pub new: Vec<u8>,
    pub service: u64,
    pub limit: u64,
    pub capacity: u64,
    pub number: u64,
}

impl Ask {
    /// Its first stage, with all the lines that a switch may have.
    pub fn new(old: &[u8], new: &[u8], service: u64, limit: u64) -> Ask {
        Ask {
            old: old.to_vec(),
            new: new.to_vec(),
            service,
            limit,
            capacity: MOST_CAPACITY,
            number: 1,
        }
    }

    pub fn change(&self) -> Change<'_> {
        Change {
            old: &self.old,
            new: &self.new,
            service: self.service,
            limit: self.limit,
            capacity: self.capacity,
        }
    }

    pub fn with_limit(&self, limit: u64) -> Ask {
        let ask = self.clone();
        Ask { limit, ..ask }
    }

    pub fn with_capacity(&self, capacity: u64) -> Ask {
        let ask = self.clone();
        Ask { capacity, ..ask }
    }

    pub fn with_number(&self, number: u64) -> Ask {
        let ask = self.clone();
        Ask { number, ..ask }
    }

    /// How many lines each stage has, whatever the capacity; none if it is refused.
    pub fn lines(&self) -> Vec<u64> {
        let counted = counted(&self.change()).unwrap_or_default();
        counted.into_iter().map(|(_, lines)| lines).collect()
    }

    /// How many stages there are, whatever the capacity.
    pub fn stages(&self) -> u64 {
        self.lines().len() as u64
    }

    /// How many bytes its stage has, whatever the capacity; none if it is refused.
    pub fn bytes(&self) -> usize {
        let whole = self.with_capacity(MOST_CAPACITY);
        let mut buffer = [0; MOST_BYTES];
        stage(&whole.change(), self.number, &mut buffer).unwrap_or(0)
    }
}

/// A rule sheet of lines that stand between commas.
pub fn sheet(k: u64, lines: &str) -> Vec<u8> {
    let (n, lines) = (lines.split(',').count(), lines.replace(',', "\n"));
    format!("TABLE {k} {n} 0\n{lines}\n").into_bytes()
}

/// Lists of one service; the first ones have suffixes of one bit at most.
const LISTS: [&str; 10] = [
    "1 * 1",
    "1 * 9999",
    "1 *0 2,1 * 1",
    "1 *1 2,1 * 1",
    "1 *0 1,1 *1 1,1 * 2",
    "1 *01 3,1 *0 2,1 * 1",
    "1 *10 1,1 *0 2,1 * 3",
    "1 *11 1,1 *00 1,1 * 2",
    "1 *10 257,1 *0 2,1 * 1",
    "1 *00 2,1 *10 2,1 *01 3,1 * 1",
];

/// How many of these lists go with k 1.
const SHORT_LISTS: usize = 5;

/// Each two lists of k 1 and every second two of k 2, with the lowest limits.
pub fn small() -> Vec<Ask> {
    let mut asks = Vec::new();
    for (k, count) in [(1, SHORT_LISTS), (2, LISTS.len())] {
        for (turn, old) in LISTS[..count].iter().enumerate() {
            for (other, new) in LISTS[..count].iter().enumerate() {
                if k == 2 && (turn + other) % 2 == 0 {
                    continue;
                }
                let limit = 1 + ((turn + other) % 3 == 2) as u64;
                asks.push(Ask::new(&sheet(k, old), &sheet(k, new), 1, limit));
            }
        }
    }
    asks
}

/// A change of k 4 in which every suffix moves.
pub fn all_moved() -> Ask {
    let (old, new) = ("1 *01 3,1 *0 2,1 * 1", "1 *11 30,1 *1 20,1 * 10");
    Ask::new(&sheet(4, old), &sheet(4, new), 1, 3)
}

/// A change of k 12 in which every suffix moves one by one.
pub fn longest() -> Ask {
    Ask::new(&sheet(12, "1 * 1"), &sheet(12, "1 * 9999"), 1, 1)
}

/// 31 suffixes of k bits, far apart in the half of the tree that begins at a place,
/// each to one of these backends in turn; then `*`.
fn scattered(k: u64, from: u64, backends: [u64; 3]) -> Vec<u8> {
    let step = (1 << k) / 64;
    let line = |i: u64| {
        let suffix = Suffix::at_place(k as u8, (from + step * i) as u16);
        let backend = backends[(i % 3) as usize];
        format!("64 {} {backend}", suffix_text(suffix))
    };
    let lines: Vec<String> = (0..31).map(line).collect();
    sheet(k, &format!("{},64 * {}", lines.join(","), backends[0] - 1))
}

/// Lists of many lines: such suffixes in the new table, in the old one, or in both,
/// so that the stage between has those of both or none.
pub fn crowds() -> Vec<Ask> {
    let mut asks = Vec::new();
    for k in [6, 12] {
        let (half, plain) = (1 << (k - 1), sheet(k, "64 * 9999"));
        let low = scattered(k, 0, [9_999, 1_000, 9_997]);
        let high = scattered(k, half, [5_555, 6_666, 1]);
        for (old, new) in [(&plain, &low), (&low, &plain), (&high, &low), (&low, &high)] {
            for limit in [half / 4, half, MOST_MOVED] {
                asks.push(Ask::new(old, new, 64, limit));
            }
        }
    }
    asks
}

/// Equal tables of each k, of the same lines or of others.
pub fn equal() -> Vec<Ask> {
    let mut asks = Vec::new();
    for k in 1..=12 {
        let pairs = [
            ("1 * 5", "1 *0 5,1 * 5"),
            ("1 *0 5,1 * 7", "1 *1 7,1 * 5"),
            ("1 *1 5,1 * 9999", "1 *1 5,1 * 9999"),
            ("1 *1 5,1 *0 6,1 * 7", "1 *0 6,1 * 5"),
        ];
        let (old, new) = pairs[k as usize % pairs.len()];
        let limit = [1, MOST_MOVED][k as usize % 2];
        asks.push(Ask::new(&sheet(k, old), &sheet(k, new), 1, limit));
    }
    asks
}

/// Several services, of which each has another change, and some that one sheet or
/// both are without.
pub fn services() -> Vec<Ask> {
    let old = sheet(3, "1 * 1,2 *0 5,2 * 6,9 *11 1,9 * 2,64 * 9999");
    let new = sheet(3, "1 * 2,2 *0 6,2 * 5,3 * 1,9 *11 2,9 * 2,64 * 9998");
    let services = [
        0,
        1,
        2,
        3,
        4,
        9,
        63,
        64,
        65,
        256,
        257,
        (1 << 32) + 2,
        u64::MAX,
    ];
    let mut asks = Vec::new();
    for service in services {
        asks.push(Ask::new(&old, &new, service, 3));
        asks.push(Ask::new(&new, &old, service, 3));
    }
    asks
}

/// Sheets that are refused.
fn bad_sheets() -> Vec<Vec<u8>> {
    let many = "1 *0 1\n".repeat(32);
    let texts = [
        "",
        "TABLE 2 1 0",
        "TABLE 2 1 0\n",
        "SHEET 2 1 0\n1 * 1\n",
        "TABLE 13 1 0\n1 * 1\n",
        "TABLE 2 1 0\n1 * 1",
        "TABLE 2 1 0\n1 *000 1\n",
        "TABLE 2 1 0\n1 * 10000\n",
        "TABLE 2 2 0\n1 * 1\n",
        "TABLE 2 1 0\n1 *0 1\n",
        "TABLE 2 3 0\n1 *0 1\n1 *00 1\n1 * 1\n",
    ];
    let mut sheets = texts.map(|text| text.as_bytes().to_vec()).to_vec();
    sheets.push(format!("TABLE 2 33 0\n{many}1 * 1\n").into_bytes());
    sheets.push(vec![b' '; MOST_BYTES + 1]);
    sheets
}

/// Each sheet that is refused as the first, with another that is refused or with
/// a good one, and as the second.
pub fn of_bad_sheets() -> Vec<Ask> {
    let good = sheet(2, "1 * 1");
    let bad = bad_sheets();
    let mut asks = Vec::new();
    for (turn, text) in bad.iter().enumerate() {
        let other = [&good, &bad[(turn + 3) % 11]][turn % 2];
        asks.push(Ask::new(text, other, 1, 1));
        asks.push(Ask::new(&good, text, 1 + turn as u64 % 2, 1));
    }
    asks
}

/// What may be wrong with a call, in the order in which it is found.
#[derive(Clone, Copy, PartialEq, Eq, PartialOrd, Ord, Debug)]
pub enum Fault {
    OldSheet,
    NewSheet,
    OldService,
    NewService,
    Depth,
    Limit,
    Capacity,
    Number,
    Crowded,
    Room,
}

/// All of them.
pub const FAULTS: [Fault; 10] = [
    Fault::OldSheet,
    Fault::NewSheet,
    Fault::OldService,
    Fault::NewService,
    Fault::Depth,
    Fault::Limit,
    Fault::Capacity,
    Fault::Number,
    Fault::Crowded,
    Fault::Room,
];

/// A change of two stages with all of these faults, but for that of the room.
pub fn with_faults(faults: &[Fault], turn: usize) -> Ask {
    let has = |fault| faults.contains(&fault);
    let lines = |without: bool, lines: &str| match without {
        true => "3 * 7".to_string(),
        false => lines.to_string(),
    };
    let k = 3 - u64::from(has(Fault::Depth));
    let mut old = sheet(3, &lines(has(Fault::OldService), "1 * 8,2 *0 1,2 * 2"));
    let mut new = sheet(k, &lines(has(Fault::NewService), "2 *0 3,2 * 4"));
    if has(Fault::OldSheet) {
        old.pop();
    }
    if has(Fault::NewSheet) {
        new[0] = b't';
    }
    let mut ask = Ask::new(&old, &new, 2, 4);
    if has(Fault::Crowded) {
        ask.capacity = 1;
    }
    if has(Fault::Limit) {
        ask.limit = [0, MOST_MOVED + 1][turn % 2];
    }
    if has(Fault::Capacity) {
        ask.capacity = match has(Fault::Crowded) {
            true => 0,
            false => [0, MOST_CAPACITY + 1][turn % 2],
        };
    }
    if has(Fault::Number) {
        ask.number = [0, 3][turn % 2];
    }
    ask
}

/// Each fault alone, with each other one, and with all that are found after it.
pub fn fault_sets() -> Vec<Vec<Fault>> {
    let mut sets = Vec::new();
    for (place, &fault) in FAULTS.iter().enumerate() {
        sets.push(vec![fault]);
        let later = &FAULTS[place + 1..];
        sets.extend(later.iter().map(|&other| vec![fault, other]));
        if later.len() > 1 {
            sets.push(FAULTS[place..].to_vec());
        }
    }
    sets
}

/// The rules of a service after a change: others, some with another backend, some
/// left out, or all with other ids.
fn changed(random: &mut Random, k: u8, rules: &[Rule]) -> Vec<Rule> {
    let backends: Vec<u64> = rules.iter().map(|rule| rule.backend.into()).collect();
    let mut after = rules.to_vec();
    match random.below(5) {
        0 => {
            let most = *random.pick(&[3, 8, 32]);
            let count = random.within(1, most);
            after = any_list(random, k, count, &backends);
        }
        1 => {
            let most = *random.pick(&[2, 5]);
            let (count, ids) = (random.within(1, most), ids(random, 3));
            after = any_list(random, k, count, &ids);
        }
        2 => drop(after.drain(..random.below(rules.len() as u64) as usize)),
        _ => {
            for _ in 0..random.within(1, 3) {
                let at = random.below(rules.len() as u64) as usize;
                after[at].backend = *random.pick(&backends) as u16;
            }
        }
    }
    after
}

/// A change of one service among a few, and a limit that cuts it into some stages,
/// into one, or into as many as there are suffixes to move.
pub fn any_change(random: &mut Random, k: u64) -> Ask {
    let old = rule_table(random, k, 3);
    let service = random.pick(&old.lines).service;
    let own = old.lines_of(service.into()).iter().map(|line| line.rule);
    let after = changed(random, old.k, &own.collect::<Vec<Rule>>());
    let mut lines: Vec<RuleLine> = old.lines.clone();
    lines.retain(|line| line.service != service);
    lines.extend(after.into_iter().map(|rule| RuleLine { service, rule }));
    lines.sort_by_key(|line| line.service);
    let mut new = Table {
        lines,
        ..old.clone()
    };
    if random.once_in(6) {
        new = renamed(random, &old);
    }
    let ask = Ask::new(&text_of(&old), &text_of(&new), service.into(), 1);
    let moved = ask.stages();
    let limit = match random.below(6) {
        0 => 1,
        1 => moved,
        2 => (moved - 1).max(1),
        3 => random.within(1, moved),
        _ => moved.div_ceil(random.within(2, 9)),
    };
    ask.with_limit(limit.min(MOST_MOVED))
}

/// Which stages of a change have more lines than all others: a way to be crowded.
pub type Way = (&'static str, fn(&[u64]) -> bool);

/// Where the one stage of the most lines is; there are three at least.
pub const WAYS: [Way; 3] = [
    ("only the first stage is crowded", |lines| {
        only(lines) == Some(0)
    }),
    ("only a middle stage is crowded", |lines| {
        only(lines).is_some_and(|at| at > 0 && at + 1 < lines.len())
    }),
    ("only the last stage is crowded", |lines| {
        only(lines).is_some_and(|at| at + 1 == lines.len())
    }),
];

/// The one stage that has the most lines; nothing if there are two, or fewer than
/// three stages.
pub fn only(lines: &[u64]) -> Option<usize> {
    let most = lines.iter().max()?;
    let at = lines.iter().position(|count| count == most)?;
    let alone = lines[at + 1..].iter().all(|count| count < most);
    (alone && lines.len() > 2).then_some(at)
}

/// For each of these depths a change for each way, with the number of its stage of
/// the most lines and how many these are.
pub fn crowded(random: &mut Random, depths: impl Iterator<Item = u64>) -> Vec<(Ask, u64)> {
    let mut found = Vec::new();
    for k in depths {
        for (_, is) in WAYS {
            let ask = (0..5_000).find_map(|_| {
                let ask = any_change(random, k);
                is(&ask.lines()).then_some(ask)
            });
            found.extend(ask.map(|ask| {
                let lines = ask.lines();
                let at = only(&lines).unwrap_or(0);
                (ask.with_number(at as u64 + 1), lines[at])
            }));
        }
    }
    found
}
