//! Expansion, packing and requests 03 to 05 once more, straight from the documents
//! and without haste: each share is counted by first match after every rule, each
//! suffix is tried, and so is each r. The unit, all of a weight, is a value here.

use crate::expansion::{Ending, Expansion, Rule};
use crate::packing::{Order, Packing, Service};
use crate::suffix::Suffix;
use crate::table::{RuleLine, Table};
use std::collections::BTreeMap;

/// The backend of each s from 0 to 2^k - 1 by the first matching rule.
fn by_first_match<'a>(k: u8, rules: impl Iterator<Item = &'a Rule> + Clone) -> Vec<u16> {
    let first = |s| rules.clone().find(|rule| rule.suffix.matches(s));
    (0..1 << k).map(|s| first(s).unwrap().backend).collect()
}

/// The number of s whose backend differs.
fn churn<'a>(
    k: u8,
    old: impl Iterator<Item = &'a Rule> + Clone,
    new: impl Iterator<Item = &'a Rule> + Clone,
) -> u64 {
    let (old, new) = (by_first_match(k, old), by_first_match(k, new));
    (0..old.len()).filter(|&s| old[s] != new[s]).count() as u64
}

/// The weight of each backend that the old list or the new weights name: 0 where
/// it has no new one.
fn weights(old: &[Rule], new: &Service) -> BTreeMap<u16, u64> {
    let mut weights: BTreeMap<u16, u64> = old.iter().map(|rule| (rule.backend, 0)).collect();
    for (&id, &weight) in new.ids.iter().zip(&new.weights) {
        weights.insert(id as u16, weight);
    }
    weights
}

/// What the steps go by: the unit, k, the tolerance, the most rules, and the most
/// suffixes of a term.
struct Steps {
    unit: u64,
    k: u8,
    tolerance: u64,
    budget: usize,
    cap: usize,
}

impl Steps {
    /// Steps 2 to 6 from the rules so far, oldest first.
    fn go_on(&self, weights: &BTreeMap<u16, u64>, mut rules: Vec<Rule>) -> Expansion {
        let mut stairs = Vec::new();
        let ending = loop {
            let holders = by_first_match(self.k, rules.iter().rev());
            let errors = self.errors(weights, &holders);
            stairs.push(errors.iter().map(|&(_, error)| error.max(0) as u64).sum());
            let bound = self.tolerance as i64 * (1 << self.k);
            if errors.iter().all(|(_, error)| error.abs() <= bound) {
                break Ending::Within;
            }
            let most = errors.iter().map(|&(_, error)| error).max().unwrap();
            let least = errors.iter().map(|&(_, error)| error).min().unwrap();
            let lowest = |wanted| {
                errors
                    .iter()
                    .find(|&&(_, error)| error == wanted)
                    .unwrap()
                    .0
            };
            let Some(size) = self.best_size(-least, most) else {
                break Ending::NoGain;
            };
            if rules.len() == self.budget {
                break Ending::Budget;
            }
            rules.push(Rule {
                suffix: held_wholly(self.k, size, &holders, lowest(most)).unwrap(),
                backend: lowest(least),
            });
        };
        Expansion {
            rules,
            stairs,
            ending,
        }
    }

    /// The error of each backend, lowest id first.
    fn errors(&self, weights: &BTreeMap<u16, u64>, holders: &[u16]) -> Vec<(u16, i64)> {
        let error = |(&id, &weight): (&u16, &u64)| {
            let share = holders.iter().filter(|&&holder| holder == id).count() as i64;
            (id, share * self.unit as i64 - weight as i64 * (1 << self.k))
        };
        weights.iter().map(error).collect()
    }

    /// The term with the greatest reduction, the larger one if equal.
    fn best_size(&self, shortfall: i64, excess: i64) -> Option<usize> {
        let reduction = |size: usize| {
            let t = (size as u64 * self.unit) as i64;
            2 * (shortfall.min(t) + excess.min(t) - t)
        };
        let sizes = (0..12).map(|i| 1 << i).filter(|&size| size <= self.cap);
        let best = sizes.max_by_key(|&size| (reduction(size), size))?;
        (reduction(best) > 0).then_some(best)
    }
}

/// The list of a service, with a budget of 32.
fn expand(unit: u64, k: u8, tolerance: u64, service: &Service) -> Expansion {
    let steps = Steps {
        unit,
        k,
        tolerance,
        budget: 32,
        cap: 1 << (k - 1),
    };
    let largest = service.weights.iter().max().unwrap();
    let first = service.weights.iter().position(|weight| weight == largest);
    let star = Rule {
        suffix: Suffix::STAR,
        backend: service.ids[first.unwrap()] as u16,
    };
    steps.go_on(&weights(&[], service), vec![star])
}

/// The packing of an order whose weights and tolerance are parts of a unit.
pub fn pack(unit: u64, order: &Order) -> Packing {
    let k = order.k as u8;
    let list = |service: &Service| expand(unit, k, order.tolerance, service);
    let lists: Vec<Expansion> = order.services.iter().map(list).collect();
    let product = |at: usize, grant: usize| {
        let stairs = &lists[at].stairs;
        match grant < stairs.len() {
            true => order.services[at].volume * (stairs[grant - 1] - stairs[grant]),
            false => 0,
        }
    };
    let mut grants = vec![1; lists.len()];
    while (grants.iter().sum::<usize>() as u64) < order.capacity {
        let next = |&at: &usize| (product(at, grants[at]), lists.len() - at);
        let best = (0..lists.len()).max_by_key(next).unwrap();
        if product(best, grants[best]) == 0 {
            break;
        }
        grants[best] += 1;
    }
    let mut table = Table {
        k,
        total: 0,
        lines: Vec::new(),
    };
    for (at, list) in lists.iter().enumerate() {
        table.total += order.services[at].volume * list.stairs[grants[at] - 1];
        let rules = list.rules[..grants[at]].iter().rev();
        table.lines.extend(rules.map(|&rule| RuleLine {
            service: at as u8 + 1,
            rule,
        }));
    }
    Packing {
        table,
        grants,
        lists,
    }
}

/// One run from the oldest `keep` rules of an old list, which is newest first;
/// the new list is oldest first.
fn run(
    unit: u64,
    k: u8,
    tolerance: u64,
    old: &[Rule],
    keep: usize,
    new: &Service,
) -> (Ending, Vec<Rule>) {
    let rules: Vec<Rule> = old.iter().rev().take(keep).copied().collect();
    let smallest = rules.iter().map(|rule| 1 << (k - rule.suffix.length()));
    let steps = Steps {
        unit,
        k,
        tolerance,
        budget: old.len(),
        cap: smallest.min().unwrap().min(1 << (k - 1)),
    };
    let list = steps.go_on(&weights(old, new), rules);
    (list.ending, list.rules)
}

/// What keeping so many of the oldest rules comes to: how the run ended, its list,
/// oldest rule first, and its churn.
pub struct Run {
    pub keep: usize,
    pub ending: Ending,
    pub list: Vec<Rule>,
    pub churn: u64,
}

/// Every r, the smallest first, where weights and tolerance are parts of a unit.
pub fn all_runs(unit: u64, k: u8, tolerance: u64, old: &[Rule], new: &Service) -> Vec<Run> {
    let run = |keep| {
        let (ending, list) = run(unit, k, tolerance, old, keep, new);
        let churn = churn(k, old.iter(), list.iter().rev());
        Run {
            keep,
            ending,
            list,
            churn,
        }
    };
    (1..=old.len()).map(run).collect()
}

/// The r that end within the tolerance.
pub fn within(runs: &[Run]) -> Vec<&Run> {
    let ended = runs.iter().filter(|run| run.ending == Ending::Within);
    ended.collect()
}

/// Of all r that end within the one with the lowest churn, the largest r if equal.
pub fn least_churn(runs: &[Run]) -> Option<&Run> {
    let within = within(runs);
    let lowest = within.iter().map(|run| run.churn).min()?;
    let equal = within.into_iter().filter(|run| run.churn == lowest);
    equal.max_by_key(|run| run.keep)
}

/// The suffix with the lowest place among those of a size held by one backend.
fn held_wholly(k: u8, size: usize, holders: &[u16], giver: u16) -> Option<Suffix> {
    let length = k - size.ilog2() as u8;
    let suffixes = (0..1 << length).map(|place| Suffix::at_place(length, place));
    let whole = |suffix: &Suffix| {
        let mut covered = (usize::from(suffix.value())..1 << k).step_by(1 << length);
        covered.all(|s| holders[s] == giver)
    };
    suffixes.into_iter().find(whole)
}
