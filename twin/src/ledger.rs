//! The ledger of a service: weight, share and error of each backend.

use crate::numerals::WHOLE;

/// One backend: its weight in hundred-millionths, the number of k-bit suffixes
/// that it holds, and its error, share x 100,000,000 - weight x 2^k.
#[derive(Clone, Copy, Debug)]
pub struct Backend {
    pub weight: u64,
    pub share: u64,
    pub error: i64,
}

impl Backend {
    /// The part of the error above zero.
    fn excess(&self) -> u64 {
        self.error.max(0) as u64
    }
}

/// All backends of a service and their imbalance, the sum of the excesses.
#[derive(Clone)]
pub struct Ledger {
    backends: Vec<Backend>,
    imbalance: u64,
}

/// The backends with the largest excess and the largest shortfall.
pub struct Extremes {
    pub giver: usize,
    pub excess: i64,
    pub receiver: usize,
    pub shortfall: i64,
}

impl Ledger {
    /// The ledger in which one backend holds all of the 2^k suffixes.
    pub fn new(k: u8, weights: &[u64], holder: usize) -> Ledger {
        let zero = |&weight: &u64| Backend {
            weight,
            share: 0,
            error: -((weight << k) as i64),
        };
        let mut backends: Vec<Backend> = weights.iter().map(zero).collect();
        backends[holder].share = 1 << k;
        backends[holder].error += (WHOLE << k) as i64;
        let imbalance = backends.iter().map(Backend::excess).sum();
        Ledger {
            backends,
            imbalance,
        }
    }

    /// The sum of the excesses.
    pub fn imbalance(&self) -> u64 {
        self.imbalance
    }

    /// The backends, lowest id first.
    pub fn backends(&self) -> &[Backend] {
        &self.backends
    }

    /// Step 3: giver and receiver, the lowest place if equal.
    pub fn extremes(&self) -> Extremes {
        let first = self.backends[0].error;
        let (mut giver, mut most) = (0, first);
        let (mut receiver, mut least) = (0, first);
        for (index, backend) in self.backends.iter().enumerate() {
            if backend.error > most {
                (giver, most) = (index, backend.error);
            }
            if backend.error < least {
                (receiver, least) = (index, backend.error);
            }
        }
        Extremes {
            giver,
            excess: most,
            receiver,
            shortfall: -least,
        }
    }

    /// How many backends have an error of more than this size.
    pub fn beyond(&self, size: i64) -> usize {
        let large = |backend: &&Backend| backend.error.abs() > size;
        self.backends.iter().filter(large).count()
    }

    /// Moves a number of suffixes from the giver to the receiver.
    pub fn give(&mut self, giver: usize, receiver: usize, count: u64) {
        for index in [giver, receiver] {
            self.imbalance -= self.backends[index].excess();
        }
        self.backends[giver].share -= count;
        self.backends[giver].error -= (count * WHOLE) as i64;
        self.backends[receiver].share += count;
        self.backends[receiver].error += (count * WHOLE) as i64;
        for index in [giver, receiver] {
            self.imbalance += self.backends[index].excess();
        }
    }
}

#[cfg(test)]
mod tests {
    use super::*;

    #[test]
    fn errors_and_imbalance_follow_each_gift() {
        let mut ledger = Ledger::new(5, &[16_666_700, 33_333_300, WHOLE / 2], 2);
        assert_eq!(ledger.imbalance(), 1_600_000_000);
        let ends = ledger.extremes();
        assert_eq!((ends.giver, ends.excess), (2, 1_600_000_000));
        assert_eq!((ends.receiver, ends.shortfall), (1, 1_066_665_600));
        ledger.give(2, 1, 16);
        assert_eq!(ledger.imbalance(), 533_334_400);
        assert_eq!(ledger.backends()[1].share, 16);
    }

    #[test]
    fn equal_errors_take_the_lowest_number() {
        let mut ledger = Ledger::new(2, &[WHOLE / 2, 0, 0, WHOLE / 4, WHOLE / 4], 1);
        assert_eq!(ledger.extremes().giver, 1);
        ledger.give(1, 2, 2);
        assert_eq!(ledger.extremes().giver, 1);
        ledger.give(1, 0, 2);
        assert_eq!(ledger.extremes().giver, 2);
        assert_eq!(ledger.extremes().receiver, 3);
    }
}
