//! What vectors `L` ask: an old list and new weights in numbers.

use super::choices::Choice;
use super::expansion::rows_text;
use super::loaded::{any_list, changed, loaded, near_shares, spoil_list, Loaded};
use super::shapes::{
    first_ids, ids, named, spoil_ids, FINE_SIXTHS, FORMER_WHOLE, FOURTH, QUARTERS, SIXTHS,
};
use crate::expansion::{Ending, Rule};
use crate::limits::MOST_ID;
use crate::lists::{list_of, numbers_of};
use crate::numerals::{PERCENT, WHOLE};
use crate::random::Random;
use crate::update::{checked, run, Known};

/// All numbers of a call but those of its buffer.
#[derive(Clone, Debug)]
pub struct Ask {
    pub k: u64,
    pub tolerance: u64,
    pub old: Vec<u64>,
    pub ids: Vec<u64>,
    pub weights: Vec<u64>,
}

impl Ask {
    /// The payload: three lines, the old list, the ids and the weights.
    pub fn payload(&self) -> Vec<u8> {
        rows_text(&[&self.old, &self.ids, &self.weights]).into_bytes()
    }

    /// The case that it makes; nothing if it is refused before any r is tried.
    pub fn case(&self) -> Option<Loaded> {
        let Ask {
            k,
            tolerance,
            old,
            ids,
            weights,
        } = self;
        let old = checked(*k, *tolerance, old, ids, weights).ok()?;
        Some(Loaded {
            k: *k as u8,
            tolerance: *tolerance,
            old,
            new: named(1, ids, weights),
        })
    }
}

pub fn ask_of(case: &Loaded) -> Ask {
    Ask {
        k: u64::from(case.k),
        tolerance: case.tolerance,
        old: numbers_of(case.old.iter()),
        ids: case.new.ids.clone(),
        weights: case.new.weights.clone(),
    }
}

/// P1's list, newest rule first.
pub(super) const P1: [u64; 12] = [5, 4, 1, 3, 0, 1, 1, 0, 2, 0, 0, 3];

/// With the ids 1, 2, ..
fn ask(k: u64, tolerance: u64, old: &[u64], weights: &[u64]) -> Ask {
    Ask {
        k,
        tolerance,
        old: old.to_vec(),
        ids: first_ids(weights.len()),
        weights: weights.to_vec(),
    }
}

/// P1's list with its own weights and others, for some tolerances.
pub fn p1_cases() -> Vec<Ask> {
    let mut asks = Vec::new();
    for weights in [
        SIXTHS,
        QUARTERS,
        [33_333_300, 16_666_700, WHOLE / 2],
        [0, 0, WHOLE],
        [WHOLE, 0, 0],
        [0, WHOLE / 2, WHOLE / 2],
    ] {
        for tolerance in [0, 1_041_699, 1_041_700, 2 * PERCENT, WHOLE] {
            asks.push(ask(5, tolerance, &P1, &weights));
        }
    }
    asks
}

/// P1's list with sixths of six decimals, whose greatest error is 1.041667, and
/// with weights that are a little away from what it holds.
pub fn p1_fine() -> Vec<Ask> {
    let mut asks = Vec::new();
    for tolerance in [1_041_600, 1_041_666, 1_041_667, 1_041_668, 1_041_700] {
        asks.push(ask(5, tolerance, &P1, &FINE_SIXTHS));
    }
    let held = [5, 11, 16].map(|share| share * WHOLE / 32);
    for apart in [1, FOURTH - 1, FOURTH] {
        let weights = [held[0] + apart, held[1] - apart, held[2]];
        for tolerance in [0, apart - 1, apart, apart + 1] {
            asks.push(ask(5, tolerance, &P1, &weights));
        }
    }
    asks
}

/// Lists of few rules: equal suffixes, rules that newer ones hide, backends left
/// with nothing, and the halves of the tree.
const SHAPES: [&[u64]; 9] = [
    &[0, 0, 1],
    &[1, 0, 1, 0, 0, 2],
    &[1, 0, 1, 1, 1, 2, 0, 0, 3],
    &[1, 0, 1, 1, 0, 2, 1, 0, 3, 0, 0, 3],
    &[2, 0, 1, 2, 2, 1, 1, 0, 2, 0, 0, 3],
    &[3, 0, 1, 3, 0, 2, 3, 0, 1, 0, 0, 2],
    &[3, 5, 2, 0, 0, 1],
    &[3, 0, 3, 1, 0, 3, 1, 1, 3, 0, 0, 3],
    &[3, 7, 1, 3, 3, 2, 3, 1, 1, 1, 1, 2, 0, 0, 3],
];

/// Each of these with some k, weights and tolerances.
pub fn shaped() -> Vec<Ask> {
    let mut asks = Vec::new();
    for (number, old) in SHAPES.iter().enumerate() {
        for (turn, weights) in [
            QUARTERS,
            [WHOLE / 2, WHOLE / 2, 0],
            [WHOLE / 8, 0, 7 * WHOLE / 8],
            [0, WHOLE, 0],
        ]
        .iter()
        .enumerate()
        {
            let least = old.iter().step_by(3).max().map_or(1, |&most| most.max(1));
            let k = (least + (3 * turn + number) as u64 % 6).min(12);
            for tolerance in [0, WHOLE / 16] {
                asks.push(ask(k, tolerance, old, weights));
            }
        }
    }
    asks
}

/// For each r a list whose r oldest rules alone are within: the whole list, or
/// all but its newest rule.
pub fn every_keep(random: &mut Random) -> Vec<Ask> {
    let mut asks = Vec::new();
    for keep in 1..=32u64 {
        for more in [0, 1] {
            if keep + more > 32 {
                continue;
            }
            let k = (1 + (keep + more) % 12).max(5) as u8;
            let ids = ids(random, 4);
            let old = any_list(random, k, keep + more, &ids);
            let new = near_shares(k, &old[more as usize..], &ids);
            let case = Loaded {
                k,
                tolerance: PERCENT / 100,
                old,
                new,
            };
            asks.push(ask_of(&case));
        }
    }
    asks
}

/// Lists of 32 rules, with weights near those of their shares.
pub fn longest(random: &mut Random, count: u64) -> Vec<Ask> {
    let mut asks = Vec::new();
    for turn in 0..count {
        let k = (5 + turn % 8) as u8;
        let backends = *random.pick(&[3, 8, 32]);
        let ids = ids(random, 32);
        let old = any_list(random, k, 32, &ids[..backends]);
        let from = random.within(1, 24) as usize;
        let near = near_shares(k, &old[from..], &ids);
        let new = changed(random, &near);
        let case = Loaded {
            k,
            tolerance: *random.pick(&[PERCENT / 100, PERCENT / 5, 2 * PERCENT]),
            old,
            new,
        };
        asks.push(ask_of(&case));
    }
    asks
}

/// Cases of every k at random.
pub fn at_random(random: &mut Random, count: u64) -> Vec<Ask> {
    let case = |turn: u64| ask_of(&loaded(random, (1 + turn % 12) as u8));
    (0..count).map(case).collect()
}

/// The lowest tolerance with which the oldest `keep` rules lead to a list that
/// ends within it. The rules of a run are the same for each tolerance, but that
/// it ends sooner.
pub fn tightest(ask: &Ask, old: &[Rule], keep: usize) -> u64 {
    let known = Known::new(old, &ask.ids, &ask.weights);
    let (mut low, mut high) = (0, WHOLE);
    while low < high {
        let middle = (low + high) / 2;
        match run(ask.k as u8, middle, old, keep, &known).0 {
            Ending::Within => high = middle,
            _ => low = middle + 1,
        }
    }
    low
}

/// A case with the tightest tolerance of each r that a greater r doesn't reach
/// too, so that each of these is once the largest that ends within, after its
/// longest run; and with one that none reaches.
pub fn tight(ask: &Ask) -> Vec<Ask> {
    let old = list_of(ask.k, &ask.old).unwrap_or_default();
    let mut asks = Vec::new();
    let mut lowest = WHOLE + 1;
    for keep in (1..=old.len()).rev() {
        let tolerance = tightest(ask, &old, keep);
        if tolerance < lowest {
            lowest = tolerance;
            asks.push(Ask {
                tolerance,
                ..ask.clone()
            });
        }
    }
    if let Some(tolerance) = lowest.checked_sub(1) {
        asks.push(Ask {
            tolerance,
            ..ask.clone()
        });
    }
    asks
}

/// Cases where no r that ends within keeps all rules; one of those that they all
/// drop goes to a backend that is missing from the weights.
pub fn dropped_missing(random: &mut Random, asks: &[Ask]) -> Vec<Ask> {
    let mut missing = Vec::new();
    for ask in asks {
        let choice = ask.case().map(|case| Choice::of(&case));
        let keep = choice
            .as_ref()
            .and_then(Choice::largest)
            .map_or(0, |made| made.keep);
        let rules = ask.old.len() / 3;
        if keep == 0 || keep == rules {
            continue;
        }
        let mut ask = ask.clone();
        let dropped = random.below((rules - keep) as u64) as usize;
        ask.old[3 * dropped + 2] = *random.pick(&[1, 33, MOST_ID]);
        missing.push(ask);
    }
    missing
}

/// Cases with something wrong in the numbers, most of them.
pub fn spoilt(random: &mut Random, count: u64) -> Vec<Ask> {
    let mut asks = at_random(random, count);
    for ask in &mut asks {
        let at = random.below(ask.weights.len() as u64) as usize;
        match random.below(10) {
            0 => ask.k = random.within(0, 14),
            1 => ask.tolerance = random.any_size(),
            2 => ask.weights[at] = random.any_size(),
            3 => ask.weights.truncate(at),
            4 => ask.weights[at] += *random.pick(&[1, FOURTH]),
            5 | 6 => spoil_ids(random, &mut ask.ids),
            _ => spoil_list(random, &mut ask.old),
        }
    }
    asks
}

/// One thing that is wrong, in the order in which it is looked for.
const FAULTS: [fn(&mut Ask); 17] = [
    |ask| ask.k = 13,
    |ask| ask.tolerance = WHOLE + 1,
    |ask| ask.old.clear(),
    |ask| set(&mut ask.old, 2, 10_000),
    |ask| set(&mut ask.old, 1, 32),
    |ask| ask.old = [[5, 4, 1].repeat(30), ask.old.clone()].concat(),
    |ask| set(&mut ask.old, 3, 6),
    |ask| ask.old.extend([0, 0, 1]),
    |ask| ask.old.push(0),
    |ask| ask.old.truncate(9),
    |ask| ask.weights.clear(),
    |ask| ask.weights.resize(33, 0),
    |ask| ask.ids.truncate(2),
    |ask| set(&mut ask.ids, 1, 1),
    |ask| set(&mut ask.ids, 2, 10_000),
    |ask| set(&mut ask.weights, 1, WHOLE + 1),
    |ask| set(&mut ask.weights, 0, 7),
];

fn set(numbers: &mut [u64], at: usize, number: u64) {
    if let Some(old) = numbers.get_mut(at) {
        *old = number;
    }
}

/// P1's list with each fault alone, and with each of so many that come next. It
/// would be made otherwise, or be stuck.
pub fn faulty(stuck: bool, next: usize) -> Vec<Ask> {
    let good = match stuck {
        true => ask(5, 0, &P1, &SIXTHS),
        false => ask(5, 2 * PERCENT, &P1, &QUARTERS),
    };
    let mut asks = Vec::new();
    for (number, first) in FAULTS.iter().enumerate() {
        let mut one = good.clone();
        first(&mut one);
        for second in FAULTS[number + 1..].iter().take(next) {
            let mut both = one.clone();
            second(&mut both);
            asks.push(both);
        }
        asks.push(one);
    }
    asks
}

/// Numbers at the limits of a list's numbers, and far beyond them.
const NUMBERS: [u64; 14] = [
    0,
    1,
    2,
    5,
    6,
    12,
    13,
    33,
    256,
    9_999,
    10_000,
    65_537,
    1 << 32,
    u64::MAX,
];

/// Lists refused for their numbers, rule by rule, and a few that aren't.
pub fn lists() -> Vec<Ask> {
    let many = |rules: usize, last: &[u64]| [&[1, 0, 1].repeat(rules)[..], last].concat();
    let mut lists: Vec<Vec<u64>> = vec![
        vec![6],
        vec![0, 1],
        vec![0, 0, 1, 0],
        vec![0, 0, 1, 0, 0],
        vec![1, 0, 1],
        vec![1, 0, 1, 0],
        vec![0, 0, 1, 0, 0, 1],
        vec![0, 0, 1, 1, 0, 1],
        vec![1, 0, 1, 2, 0, 1, 0, 0, 10_000],
        vec![1, 0, 1, 2, 0, 10_000, 0, 0, 1],
        vec![1, 0, 1, 2, 0, 1, 0],
        vec![2, 0, 1, 1, 0, 1],
        vec![2, 0, 1, 1, 0, 1, 0, 0, 3],
        vec![2, 3, 1, 2, 3, 1, 0, 0, 3],
    ];
    for number in NUMBERS {
        lists.push(vec![number, 0, 1, 0, 0, 1]);
        lists.push(vec![1, number, 1, 0, 0, 1]);
        lists.push(vec![0, number, 1]);
        lists.push(vec![0, 0, number]);
    }
    for rules in [31, 32, 33, 39] {
        for last in [&[0, 0, 2][..], &[2, 0, 1], &[6, 0, 1], &[0, 0], &[]] {
            lists.push(many(rules, last));
        }
    }
    let asks = lists
        .iter()
        .map(|list| ask(5, 2 * PERCENT, list, &QUARTERS));
    asks.collect()
}

/// Weights by their number, each of some size.
pub fn weight_counts() -> Vec<Ask> {
    let mut asks = Vec::new();
    for count in [0, 1, 2, 31, 32, 33, 34, 40] {
        for weight in [0, WHOLE / 32, WHOLE, WHOLE + 1, u64::MAX] {
            asks.push(ask(5, WHOLE, &[1, 0, 1, 0, 0, 1], &vec![weight; count]));
        }
    }
    for last in [
        WHOLE / 2 - FOURTH,
        WHOLE / 2 - 1,
        WHOLE / 2 + 1,
        WHOLE / 2 + FOURTH,
    ] {
        asks.push(ask(5, WHOLE, &[1, 0, 1, 0, 0, 1], &[WHOLE / 2, last]));
    }
    let former = [FORMER_WHOLE / 2; 2];
    asks.push(ask(5, WHOLE, &[1, 0, 1, 0, 0, 1], &former));
    for backend in [1, 2, 3, 33, MOST_ID] {
        asks.push(ask(5, WHOLE, &[1, 0, 1, 0, 0, backend], &[WHOLE / 32; 32]));
        asks.push(ask(5, WHOLE, &[1, 0, backend, 0, 0, 1], &[WHOLE / 2; 2]));
    }
    asks
}

/// k and tolerance at their limits and beyond.
pub fn heads() -> Vec<Ask> {
    let mut asks = Vec::new();
    for k in [0, 1, 12, 13, 64, 256, 257, 1 << 32, u64::MAX] {
        asks.push(ask(k, WHOLE, &[1, 0, 1, 0, 0, 1], &[WHOLE]));
    }
    for tolerance in [0, WHOLE, WHOLE + 1, 1 << 32, u64::MAX] {
        asks.push(ask(1, tolerance, &[1, 0, 2, 0, 0, 1], &[WHOLE / 2; 2]));
    }
    asks
}
