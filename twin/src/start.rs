//! What a list goes on from, and steps 2 to 6 of the expansion.

use crate::expansion::{Ending, Rule};
use crate::holdings::Holdings;
use crate::ledger::Ledger;
use crate::numerals::WHOLE;
use crate::suffix::Suffix;

/// The rules so far, as a ledger and as holdings. Both know a backend by its
/// place among the ids, which ascend.
#[derive(Clone)]
pub struct Start<'a> {
    k: u8,
    ids: &'a [u64],
    ledger: Ledger,
    holdings: Holdings,
}

/// What a list is to keep: its tolerance, the number of its rules, and how many
/// terms may be tried, the smallest first.
pub struct Limits {
    pub tolerance: u64,
    pub budget: usize,
    pub terms: u8,
}

impl<'a> Start<'a> {
    /// The rule `*` alone, to one backend.
    pub fn new(k: u8, ids: &'a [u64], weights: &[u64], holder: usize) -> Start<'a> {
        Start {
            k,
            ids,
            ledger: Ledger::new(k, weights, holder),
            holdings: Holdings::new(k, holder),
        }
    }

    /// Gives a suffix that one backend holds to another, and returns which one
    /// had it.
    pub fn lay(&mut self, suffix: Suffix, receiver: usize) -> usize {
        let giver = self.holdings.lay(suffix, receiver);
        if giver != receiver {
            let count = 1 << (self.k - suffix.length());
            self.ledger.give(giver, receiver, count);
        }
        giver
    }

    /// Whether as many moves as these could end within the tolerance: a move
    /// changes the errors of two backends.
    pub fn reaches(&self, tolerance: u64, moves: usize) -> bool {
        self.ledger.beyond((tolerance << self.k) as i64) <= 2 * moves
    }

    /// Which backend holds what.
    pub fn holdings(&self) -> &Holdings {
        &self.holdings
    }

    /// Steps 2 to 6: adds rules to those so far, and tells each imbalance.
    pub fn go_on(
        &mut self,
        limits: &Limits,
        rules: &mut Vec<Rule>,
        mut stair: impl FnMut(u64),
    ) -> Ending {
        loop {
            stair(self.ledger.imbalance());
            let ends = self.ledger.extremes();
            if ends.excess.max(ends.shortfall) <= (limits.tolerance << self.k) as i64 {
                return Ending::Within;
            }
            let Some(term) = best_term(limits.terms, ends.shortfall, ends.excess) else {
                return Ending::NoGain;
            };
            if rules.len() == limits.budget {
                return Ending::Budget;
            }
            let given = self.holdings.give(ends.giver, ends.receiver, term);
            let suffix = given.expect("terms never grow, so the giver holds a whole suffix");
            self.ledger.give(ends.giver, ends.receiver, 1 << term);
            rules.push(Rule {
                suffix,
                backend: self.ids[ends.receiver] as u16,
            });
        }
    }
}

/// Step 4: the i of the term 2^i with the greatest reduction, the larger term
/// if equal; nothing if no reduction is above zero.
fn best_term(terms: u8, shortfall: i64, excess: i64) -> Option<u8> {
    let mut best = None;
    let mut greatest = 1;
    for i in 0..terms {
        let t = (WHOLE << i) as i64;
        let reduction = 2 * (shortfall.min(t) + excess.min(t) - t);
        if reduction >= greatest {
            (best, greatest) = (Some(i), reduction);
        }
    }
    best
}
