//! The count by first match: shares and imbalance from rule lines alone.

use crate::expansion::Rule;
use crate::numerals::WHOLE;

/// The number of s from 0 to 2^k - 1 that the backend of each id is given by the
/// first matching rule from the top, the newest.
pub fn shares<'a, I>(k: u8, ids: &[u64], rules: I) -> Vec<u64>
where
    I: Iterator<Item = &'a Rule> + Clone,
{
    let mut shares = vec![0; ids.len()];
    for s in 0..1 << k {
        let first = rules.clone().find(|rule| rule.suffix.matches(s));
        let own = |rule: &Rule| ids.iter().position(|&id| id == u64::from(rule.backend));
        if let Some(place) = first.and_then(own) {
            shares[place] += 1;
        }
    }
    shares
}

/// The signed error of each backend.
pub fn errors(k: u8, weights: &[u64], shares: &[u64]) -> Vec<i64> {
    let error = |(&weight, &share): (&u64, &u64)| (share * WHOLE) as i64 - (weight << k) as i64;
    weights.iter().zip(shares).map(error).collect()
}

/// The sum of the excesses.
pub fn imbalance(k: u8, weights: &[u64], shares: &[u64]) -> u64 {
    let errors = errors(k, weights, shares);
    errors.iter().map(|&error| error.max(0) as u64).sum()
}

#[cfg(test)]
mod tests {
    use super::*;
    use crate::expansion::{expand, Ending};
    use crate::numerals::PERCENT;
    use crate::random::Random;
    use crate::vectors::shapes::{ids, weights};

    #[test]
    fn stairs_are_the_counted_imbalance_of_each_cut_list() {
        let mut random = Random::new(13);
        for _ in 0..200 {
            let k = random.within(1, 9) as u8;
            let count = random.within(1, 12) as usize;
            let (ids, weights) = (ids(&mut random, count), weights(&mut random, count));
            let tolerance = random.below(3 * PERCENT / 10);
            let list = expand(u64::from(k), tolerance, 32, &ids, &weights).unwrap();
            for cut in 1..=list.rules.len() {
                let shares = shares(k, &ids, list.rules[..cut].iter().rev());
                assert_eq!(shares.iter().sum::<u64>(), 1 << k);
                assert_eq!(imbalance(k, &weights, &shares), list.stairs[cut - 1]);
            }
            let last = shares(k, &ids, list.rules.iter().rev());
            let errors = errors(k, &weights, &last);
            let spread = errors.iter().max().unwrap() - errors.iter().min().unwrap();
            assert!(list.ending != Ending::NoGain || spread <= WHOLE as i64);
        }
    }
}
