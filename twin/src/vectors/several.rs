//! Cases where several r end within the tolerance.

use super::asks::{ask_of, tightest, Ask};
use super::choices::{Choice, Way, LARGER, WAYS};
use super::loaded::{any_list, changed, near_shares, of_sheets, Loaded};
use super::shapes::{ids, named, weights};
use crate::expansion::{make_list, Rule};
use crate::numerals::{PERCENT, WHOLE};
use crate::packing::Order;
use crate::random::Random;
use crate::suffix::Suffix;
use crate::table::{RuleLine, Table};

/// Rules, tolerances and new weights of a few, for k 2 and on.
const SMALL: [[&str; 3]; 18] = [
    ["*00 3,*0 2,* 1", "25", "1:20 2:30 3:50"],
    ["*00 3,*0 2,* 1", "20", "1:10 2:30 3:60"],
    ["*1 1,*1 2,* 1", "20", "1:65 2:35"],
    ["*01 2,*1 1,*1 2,* 1", "0", "1:50 2:50"],
    ["*01 3,*00 4,*0 2,* 1", "20", "1:30 2:30 3:40"],
    ["*01 1,*1 2,*0 2,* 1", "0", "1:50 2:50"],
    ["*01 1,*00 4,*0 3,* 2", "20", "1:30 2:30 3:40"],
    ["*00 1,*11 2,*1 3,* 2", "10", "1:25 2:75"],
    ["*01 4,*00 1,*0 3,* 2", "0", "1:25 2:75"],
    ["*11 1,*1 2,*0 2,*1 1,* 1", "5", "1:50 2:50"],
    ["*11 3,*1 1,*0 1,*0 2,* 3", "10", "1:50 2:50"],
    ["*1 1,*1 2,* 1", "20", "1:80 2:20"],
    ["*00 1,*0 2,* 3", "0", "1:25 2:25 3:50"],
    ["*11 1,*11 1,*1 1,* 3", "0", "2:100 3:0"],
    ["*00100 1,*000 1,*0 2,* 3", "2", "1:25 2:25 3:50"],
    ["*00100 1,*000 1,*0 2,* 3", "2", "2:50 3:50"],
    ["*00100 1,*000 1,*0 2,* 3", "2", "1:16.6667 2:33.3333 3:50"],
    ["*0000 3,*001 3,*00 1,*0 2,* 4", "5", "1:20 3:20 4:60"],
];

/// One of these for its least k, which is 2 or more, and so many bits more.
fn small_case([rules, tolerance, weights]: [&str; 3], more: usize) -> Option<Loaded> {
    let (count, longest) = (rules.split(',').count(), rules.find(' ')?);
    let k = ((longest - 1).max(2) + more).min(12);
    let lines = format!("1 {}", rules.replace(',', "\n1 "));
    let old = format!("TABLE {k} {count} 0\n{lines}\n");
    let sheet = format!("SHEET {k} {tolerance} 9\nSERVICE 1 {weights}\n");
    of_sheets(old.as_bytes(), sheet.as_bytes(), 1)
}

/// Each of these for its least k and a larger one, in turn with ids that lie apart.
pub fn small() -> Vec<Loaded> {
    let mut cases = Vec::new();
    for (number, &row) in SMALL.iter().enumerate() {
        for (turn, more) in [0, [1, 3, 12][number % 3]].into_iter().enumerate() {
            let mut case = small_case(row, more).expect("both sheets are accepted");
            if (number + turn) % 2 == 1 {
                case.old.iter_mut().for_each(|rule| rule.backend *= 1_111);
                case.new.ids.iter_mut().for_each(|id| *id *= 1_111);
            }
            cases.push(case);
        }
    }
    cases
}

/// A list of so many rules, or fewer, and few backends, and weights near its shares
/// after some rules were dropped; the tolerance is often large, so that many r end
/// within.
pub fn any_case(random: &mut Random, k: u8, rules: u64) -> Loaded {
    let count = random.within(2, 5) as usize;
    let ids = ids(random, count);
    let old: Vec<Rule> = match random.below(3) {
        0 => {
            let weights = weights(random, count);
            let list = make_list(k, 0, rules as usize, &ids, &weights);
            list.rules.into_iter().rev().collect()
        }
        _ => any_list(random, k, rules, &ids),
    };
    let dropped = random.below(old.len() as u64) as usize;
    let near = near_shares(k, &old[dropped..], &ids);
    let new = match random.below(4) {
        0 => named(1, &ids, &weights(random, count)),
        1 => near,
        _ => changed(random, &near),
    };
    Loaded {
        k,
        tolerance: tolerance(random, k),
        old,
        new,
    }
}

/// Tolerances that few r meet, and that many do.
fn tolerance(random: &mut Random, k: u8) -> u64 {
    match random.below(4) {
        0 => 0,
        1 => WHOLE >> k,
        2 => WHOLE >> k.min(4),
        _ => PERCENT * random.within(1, 25),
    }
}

/// A list of 32 rules, each to a backend of its own, and weights of 32 others.
fn all_known(random: &mut Random, k: u8) -> Loaded {
    let all = ids(random, 64);
    let (before, after): (Vec<u64>, Vec<u64>) = all.chunks(2).map(|two| (two[0], two[1])).unzip();
    let mut old = any_list(random, k, 32, &before);
    for (rule, &id) in old.iter_mut().zip(&before) {
        rule.backend = id as u16;
    }
    let few = random.within(1, 6) as usize;
    let mut weights = weights(random, few);
    weights.resize(32, 0);
    Loaded {
        k,
        tolerance: tolerance(random, k),
        old,
        new: named(1, &after, &weights),
    }
}

/// How many cases of one size are tried: some ways are rare, and some sizes lack
/// one.
const TRIES: usize = 4_000;

/// A case for each way that is missing, if one is found.
fn sought(
    random: &mut Random,
    missing: &mut Vec<Way>,
    make: impl Fn(&mut Random) -> Loaded,
) -> Vec<Loaded> {
    let mut found = Vec::new();
    for _ in 0..TRIES {
        if missing.is_empty() {
            break;
        }
        let case = make(random);
        let choice = Choice::of(&case);
        if let Some(at) = missing.iter().position(|(_, is)| is(&choice)) {
            missing.remove(at);
            found.push(case);
        }
    }
    found
}

/// Cases of these k, one of each k for each way, with lists as short as are found.
pub fn of_every_way(random: &mut Random, depths: impl Iterator<Item = u8>) -> Vec<Loaded> {
    let mut cases = Vec::new();
    for k in depths {
        let mut missing = WAYS.to_vec();
        for most in [4, 8, 16, 32] {
            let make = |random: &mut Random| {
                let rules = random.within(2, most);
                any_case(random, k, rules)
            };
            cases.extend(sought(random, &mut missing, make));
        }
    }
    cases
}

/// Cases of k 12 with 32 rules, and with 64 backends too, where a larger r ends
/// within: one of each for each way, if it is found.
pub fn largest(random: &mut Random) -> Vec<Loaded> {
    let most_rules = |random: &mut Random| any_case(random, 12, 32);
    let most_known = |random: &mut Random| all_known(random, 12);
    [
        sought(random, &mut WAYS[..LARGER].to_vec(), most_rules),
        sought(random, &mut WAYS[..LARGER].to_vec(), most_known),
    ]
    .concat()
}

/// Short lists with the lowest tolerance of each of their r.
pub fn at_each_tolerance(random: &mut Random, count: u8) -> Vec<Ask> {
    let mut asks = Vec::new();
    for turn in 0..count {
        let rules = random.within(2, 6);
        let case = any_case(random, 2 + turn % 11, rules);
        let ask = ask_of(&case);
        let tolerance = |keep| tightest(&ask, &case.old, keep);
        let mut tolerances: Vec<u64> = (1..=case.old.len()).map(tolerance).collect();
        tolerances.sort_unstable();
        tolerances.dedup();
        asks.extend(tolerances.into_iter().map(|tolerance| Ask {
            tolerance,
            ..ask.clone()
        }));
    }
    asks
}

/// A case as one service of two sheets, and its number; the others have one
/// backend each, and the rule sheet lacks some of them.
pub fn among_others(random: &mut Random, case: &Loaded) -> (u64, Table, Order) {
    let service = random.within(1, 4);
    let star = Rule {
        suffix: Suffix::at_place(0, 0),
        backend: 7,
    };
    let mut lines = Vec::new();
    for number in 1..=5 {
        let rules = match random.below(2) {
            _ if number == service => &case.old[..],
            0 => &[star],
            _ => &[],
        };
        lines.extend(rules.iter().map(|&rule| RuleLine {
            service: number as u8,
            rule,
        }));
    }
    let mut services = vec![named(1, &[7], &[WHOLE]); (service + random.below(2)) as usize];
    services[service as usize - 1] = case.new.clone();
    let table = Table {
        k: case.k,
        total: 0,
        lines,
    };
    let order = Order {
        k: case.k.into(),
        tolerance: case.tolerance,
        capacity: 64,
        services,
    };
    (service, table, order)
}

#[cfg(test)]
mod tests {
    use super::*;
    use crate::expansion::Ending;
    use crate::plain::{all_runs, Run};

    /// The churn of each r, from all down to 1; `-` where it doesn't end within.
    fn churns(case: &Loaded) -> String {
        let churn = |run: &Run| match run.ending {
            Ending::Within => run.churn.to_string(),
            _ => "-".to_string(),
        };
        let runs = all_runs(WHOLE, case.k, case.tolerance, &case.old, &case.new);
        let churns: Vec<String> = runs.iter().rev().map(churn).collect();
        churns.join(" ")
    }

    #[test]
    fn what_each_r_of_the_small_cases_comes_to() {
        let expected = [
            "- 3 2",
            "- 3 2",
            "- 2 1",
            "- 3 1 3",
            "- 2 1 3",
            "- 3 1 1",
            "- 2 1 1",
            "- 2 3 1",
            "- 2 3 2",
            "- 3 1 1 1",
            "- 3 2 3 2",
            "0 1 0",
            "0 0 2",
            "- - 4 4",
            "- 3 3 13",
            "- 5 5 5",
            "0 0 0 0",
            "- - 7 9 6",
        ];
        for (row, expected) in SMALL.into_iter().zip(expected) {
            assert_eq!(churns(&small_case(row, 0).unwrap()), expected, "{row:?}");
        }
    }
}
