//! The expansion of one service (document 01, "Expansion").

use crate::limits::{MOST_BACKENDS, MOST_BITS, MOST_ID, MOST_RULES};
use crate::numerals::WHOLE;
use crate::refusal::{Reason, Refusal};
use crate::start::{Limits, Start};
use crate::suffix::Suffix;

/// A rule sends the addresses of a suffix to a backend, which has an id.
#[derive(Clone, Copy, PartialEq, Eq, Debug)]
pub struct Rule {
    pub suffix: Suffix,
    pub backend: u16,
}

/// How a list ended.
#[derive(Clone, Copy, PartialEq, Eq, Debug)]
pub enum Ending {
    Within,
    NoGain,
    Budget,
}

/// The list of a service: its rules, oldest first, its stairs (the imbalance
/// after 1, 2, .. rules), and how the list ended.
#[derive(Clone, PartialEq, Eq, Debug)]
pub struct Expansion {
    pub rules: Vec<Rule>,
    pub stairs: Vec<u64>,
    pub ending: Ending,
}

/// The expansion without a text: checks what it is handed, then makes the list.
pub fn expand(
    k: u64,
    tolerance: u64,
    budget: u64,
    ids: &[u64],
    weights: &[u64],
) -> Result<Expansion, Refusal> {
    check(k, tolerance, budget, ids, weights).map_err(|reason| reason.at(0))?;
    Ok(make_list(k as u8, tolerance, budget as usize, ids, weights))
}

/// k, tolerance, budget, backends, ids and weights, sum, in this order.
fn check(k: u64, tolerance: u64, budget: u64, ids: &[u64], weights: &[u64]) -> Result<(), Reason> {
    let limits = [
        (k, 1, MOST_BITS),
        (tolerance, 0, WHOLE),
        (budget, 1, MOST_RULES),
    ];
    if limits
        .iter()
        .any(|&(number, lo, hi)| number < lo || number > hi)
    {
        return Err(Reason::BadField);
    }
    check_backends(ids, weights)
}

/// The number of backends, which is that of the weights, then one id for each
/// (other than that is too few or too many fields), then ids and weights.
pub fn check_backends(ids: &[u64], weights: &[u64]) -> Result<(), Reason> {
    match weights.len() as u64 {
        0 => Err(Reason::BadField),
        1..=MOST_BACKENDS if ids.len() == weights.len() => check_weights(ids, weights),
        1..=MOST_BACKENDS => Err(Reason::Malformed),
        _ => Err(Reason::TooMany),
    }
}

/// Each id is in line and each weight at most 100,000,000, then their sum is
/// just that.
pub fn check_weights(ids: &[u64], weights: &[u64]) -> Result<(), Reason> {
    if !in_line(ids) || weights.iter().any(|&weight| weight > WHOLE) {
        return Err(Reason::BadField);
    }
    check_sum(weights)
}

/// Whether ids ascend from 1 on to at most 9,999.
fn in_line(ids: &[u64]) -> bool {
    let ascend = ids.windows(2).all(|pair| pair[0] < pair[1]);
    ascend && ids.first() > Some(&0) && ids.last() <= Some(&MOST_ID)
}

/// Weights that are within their limits sum to 100,000,000.
pub fn check_sum(weights: &[u64]) -> Result<(), Reason> {
    match weights.iter().sum::<u64>() {
        WHOLE => Ok(()),
        _ => Err(Reason::Unbalanced),
    }
}

/// Steps 1 to 6 for numbers within their limits.
pub fn make_list(k: u8, tolerance: u64, budget: usize, ids: &[u64], weights: &[u64]) -> Expansion {
    let first = largest(weights);
    let mut rules = Vec::with_capacity(budget);
    let mut stairs = Vec::with_capacity(budget);
    rules.push(Rule {
        suffix: Suffix::STAR,
        backend: ids[first] as u16,
    });
    let limits = Limits {
        tolerance,
        budget,
        terms: k,
    };
    let mut start = Start::new(k, ids, weights, first);
    let ending = start.go_on(&limits, &mut rules, |stair| stairs.push(stair));
    Expansion {
        rules,
        stairs,
        ending,
    }
}

/// Step 1: the largest weight, the lowest id if equal.
fn largest(weights: &[u64]) -> usize {
    let mut largest = 0;
    for (index, &weight) in weights.iter().enumerate() {
        if weight > weights[largest] {
            largest = index;
        }
    }
    largest
}

#[cfg(test)]
mod tests {
    use super::*;
    use crate::numerals::PERCENT;
    use crate::random::Random;
    use crate::vectors::shapes::{first_ids, ids, weights};

    /// A list as text: `suffix>backend`, oldest first.
    fn shown(list: &Expansion) -> String {
        let mut text = Vec::new();
        for rule in &list.rules {
            rule.suffix.push(&mut text);
            text.extend(format!(">{} ", rule.backend).bytes());
        }
        String::from_utf8(text).unwrap().trim_end().to_string()
    }

    /// With the ids 1, 2, ..
    fn numbered(k: u64, tolerance: u64, budget: u64, weights: &[u64]) -> Expansion {
        expand(k, tolerance, budget, &first_ids(weights.len()), weights).unwrap()
    }

    fn assert_list(
        k: u64,
        tolerance: u64,
        weights: &[u64],
        rules: &str,
        stairs: &[u64],
        ending: Ending,
    ) {
        let list = numbered(k, tolerance, 32, weights);
        assert_eq!(shown(&list), rules);
        assert_eq!(list.stairs, stairs);
        assert_eq!(list.ending, ending);
    }

    #[test]
    fn cases_p1_and_p2_and_figure_3b() {
        let (rules, sixths) = (
            "*>3 *0>2 *000>1 *00100>1",
            [16_666_700, 33_333_300, WHOLE / 2],
        );
        let stairs = [1_600_000_000, 533_334_400, 133_334_400, 33_334_400];
        assert_list(5, 2 * PERCENT, &sixths, rules, &stairs, Ending::Within);
        assert_list(5, 0, &sixths, rules, &stairs, Ending::NoGain);
    }

    #[test]
    fn cases_p3_to_p6() {
        let quarters = [WHOLE / 4, WHOLE / 4, WHOLE / 2];
        let stairs = [1_600_000_000, 800_000_000, 0];
        assert_list(5, 0, &quarters, "*>3 *0>1 *00>2", &stairs, Ending::Within);
        assert_list(1, 0, &[WHOLE], "*>1", &[0], Ending::Within);
        let stairs = [100_000_000, 0];
        assert_list(
            1,
            0,
            &[WHOLE / 2, WHOLE / 2],
            "*>1 *0>2",
            &stairs,
            Ending::Within,
        );
        let thirds = [33_333_400, 33_333_300, 33_333_300];
        let stairs = [133_333_200, 66_666_600];
        assert_list(1, 0, &thirds, "*>1 *0>2", &stairs, Ending::NoGain);
    }

    /// P1 with six decimals, and ties that the last of them breaks: of the `*`, and
    /// of who gives its half next.
    #[test]
    fn the_last_of_six_decimals_counts() {
        let sixths = [16_666_667, 33_333_333, WHOLE / 2];
        let rules = "*>3 *0>2 *000>1 *00100>1";
        let stairs = [1_600_000_000, 533_333_344, 133_333_344, 33_333_344];
        assert_list(5, 1_041_667, &sixths, rules, &stairs, Ending::Within);
        assert_list(5, 1_041_666, &sixths, rules, &stairs, Ending::NoGain);
        let said = |weights: &[u64]| shown(&numbered(2, 0, 32, weights));
        let each = WHOLE / 4;
        assert_eq!(said(&[each; 4]), "*>1 *0>2 *01>3 *00>4");
        let (below, above) = (each - 1, each + 1);
        assert_eq!(said(&[below, above, each, each]), "*>2 *0>3 *00>4 *01>1");
        assert_eq!(said(&[each, below, above, each]), "*>3 *0>1 *00>4 *01>2");
    }

    #[test]
    fn the_budget_is_the_last_stop_tried() {
        let sixths = [16_666_700, 33_333_300, WHOLE / 2];
        let cut = numbered(5, 0, 3, &sixths);
        assert_eq!(
            (shown(&cut).as_str(), cut.ending),
            ("*>3 *0>2 *000>1", Ending::Budget)
        );
        assert_eq!(numbered(5, 0, 4, &sixths).ending, Ending::NoGain);
        assert_eq!(numbered(5, 2 * PERCENT, 4, &sixths).ending, Ending::Within);
    }

    #[test]
    fn rules_carry_ids_and_ties_go_to_the_lowest() {
        let said = |ids: &[u64], weights: &[u64]| shown(&expand(2, 0, 32, ids, weights).unwrap());
        let quarters = [WHOLE / 4; 4];
        let ids = [1, 70, 800, 9_999];
        assert_eq!(said(&ids, &quarters), "*>1 *0>70 *01>800 *00>9999");
        assert_eq!(said(&[5, 6], &[WHOLE / 2; 2]), "*>5 *0>6");
        assert_eq!(said(&[9_999], &[WHOLE]), "*>9999");
    }

    /// A list is that of the ids 1, 2, .. with these in their place.
    #[test]
    fn other_ids_change_no_step() {
        let mut random = Random::new(71);
        for _ in 0..500 {
            let (k, count) = (random.within(1, 12), random.within(1, 32) as usize);
            let (ids, weights) = (ids(&mut random, count), weights(&mut random, count));
            let mut expected = numbered(k, 0, 32, &weights);
            for rule in &mut expected.rules {
                rule.backend = ids[usize::from(rule.backend) - 1] as u16;
            }
            assert_eq!(expand(k, 0, 32, &ids, &weights), Ok(expected));
        }
    }

    #[test]
    fn refusals_in_their_order() {
        let number = |k, tolerance, budget, weights: &[u64]| {
            let ids = first_ids(weights.len());
            expand(k, tolerance, budget, &ids, weights).map_err(Refusal::number)
        };
        let many = [WHOLE + 1; 33];
        assert_eq!(number(0, 0, 1, &[WHOLE]), Err(2));
        assert_eq!(number(13, 0, 1, &many), Err(2));
        assert_eq!(number(12, WHOLE + 1, 1, &many), Err(2));
        assert_eq!(number(12, WHOLE, 33, &many), Err(2));
        assert_eq!(number(12, WHOLE, 0, &many), Err(2));
        assert_eq!(number(12, WHOLE, 32, &many), Err(4));
        assert_eq!(number(12, WHOLE, 32, &[]), Err(2));
        assert_eq!(number(12, WHOLE, 32, &many[..32]), Err(2));
        assert_eq!(number(12, WHOLE, 32, &[u64::MAX, 1]), Err(2));
        assert_eq!(number(12, WHOLE, 32, &[WHOLE - 1]), Err(3));
        assert_eq!(number(12, WHOLE, 32, &[WHOLE - 100]), Err(3));
        assert_eq!(number(12, WHOLE, 32, &[WHOLE / 100]), Err(3));
        assert_eq!(number(12, WHOLE, 32, &[WHOLE, 1]), Err(3));
    }

    #[test]
    fn refusals_of_ids() {
        let number = |ids: &[u64], weights: &[u64]| {
            expand(5, 0, 32, ids, weights).map_or_else(Refusal::number, |_| 0)
        };
        let half = [WHOLE / 2; 2];
        for ids in [[1, 2], [1, 9_999], [9_998, 9_999]] {
            assert_eq!(number(&ids, &half), 0);
        }
        for ids in [[0, 1], [1, 10_000], [2, 2], [2, 1], [u64::MAX, 1], [1, 0]] {
            assert_eq!(number(&ids, &half), 2);
            assert_eq!(number(&ids, &[1, 1]), 2);
        }
        for ids in [&[][..], &[1], &[1, 2, 3], &[2, 1, 0]] {
            assert_eq!(number(ids, &half), 1);
            assert_eq!(number(ids, &[WHOLE + 1; 2]), 1);
            assert_eq!(number(ids, &[WHOLE + 1; 33]), 4);
            assert_eq!(number(ids, &[]), 2);
        }
        assert_eq!(number(&[1, 2], &[1, 1]), 3);
        assert_eq!(number(&first_ids(33), &[WHOLE / 32; 32]), 1);
    }

    #[test]
    fn terms_and_drops_never_grow() {
        let mut random = Random::new(11);
        for _ in 0..3_000 {
            let k = random.within(1, 12);
            let count = random.within(1, 32);
            let weights = weights(&mut random, count as usize);
            let list = numbered(k, 0, 32, &weights);
            let lengths: Vec<u8> = list.rules.iter().map(|rule| rule.suffix.length()).collect();
            assert!(lengths.windows(2).all(|pair| pair[0] <= pair[1]));
            let drops: Vec<u64> = list
                .stairs
                .windows(2)
                .map(|pair| pair[0] - pair[1])
                .collect();
            assert!(drops.windows(2).all(|pair| pair[0] >= pair[1]));
            assert!(drops.iter().all(|&drop| drop > 0));
        }
    }
}
