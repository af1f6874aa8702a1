//! Which backend holds which k-bit suffixes, in the order of their tree places.
//!
//! In that order a suffix of length L and place p covers the 2^(k-L) places
//! from p x 2^(k-L) on. So the holders are kept as runs of places.

use crate::suffix::Suffix;

/// Places from `start` up to the start of the next run, all of one holder.
#[derive(Clone, Copy, PartialEq, Eq, Debug)]
struct Run {
    start: u16,
    holder: u8,
}

/// The runs of all 2^k places; no two neighbours have the same holder.
#[derive(Clone, PartialEq, Eq, Debug)]
pub struct Holdings {
    k: u8,
    runs: Vec<Run>,
}

impl Holdings {
    /// Everything is held by one backend.
    pub fn new(k: u8, holder: usize) -> Holdings {
        let mut runs = Vec::with_capacity(66);
        runs.push(Run {
            start: 0,
            holder: holder as u8,
        });
        Holdings { k, runs }
    }

    /// Step 6: among suffixes that cover 2^term and are held wholly by the
    /// giver, the one with the lowest tree place goes to the receiver.
    pub fn give(&mut self, giver: usize, receiver: usize, term: u8) -> Option<Suffix> {
        let (run, start) = self.lowest(giver as u8, 1 << term)?;
        self.cut(run, start, start + (1 << term), receiver as u8);
        Some(Suffix::at_place(self.k - term, start >> term))
    }

    /// Gives a suffix that lies in one run to a holder and returns who had it.
    pub fn lay(&mut self, suffix: Suffix, holder: usize) -> usize {
        let size = 1 << (self.k - suffix.length());
        let start = suffix.place() * size;
        let run = self.runs.partition_point(|run| run.start <= start) - 1;
        debug_assert!(start + size <= self.end(run));
        let before = usize::from(self.runs[run].holder);
        if before != holder {
            self.cut(run, start, start + size, holder as u8);
        }
        before
    }

    /// How many places have unlike holders here and there, where k is the same.
    pub fn unlike(&self, other: &Holdings) -> u64 {
        let (mut here, mut there, mut place, mut count) = (0, 0, 0, 0);
        while place < 1 << self.k {
            let (end, other_end) = (self.end(here), other.end(there));
            let next = end.min(other_end);
            if self.runs[here].holder != other.runs[there].holder {
                count += u64::from(next - place);
            }
            here += usize::from(end == next);
            there += usize::from(other_end == next);
            place = next;
        }
        count
    }

    /// The first place that is a multiple of `size` and begins `size` places of
    /// one run of the holder, with the number of that run.
    fn lowest(&self, holder: u8, size: u16) -> Option<(usize, u16)> {
        (0..self.runs.len()).find_map(|run| {
            let start = self.runs[run].start.next_multiple_of(size);
            let whole = self.runs[run].holder == holder && start + size <= self.end(run);
            whole.then_some((run, start))
        })
    }

    /// The place after the last one of a run.
    fn end(&self, run: usize) -> u16 {
        self.runs
            .get(run + 1)
            .map_or(1 << self.k, |next| next.start)
    }

    /// Gives the places `start..end` of a run to another holder.
    fn cut(&mut self, run: usize, start: u16, end: u16, holder: u8) {
        let Run {
            start: before,
            holder: giver,
        } = self.runs[run];
        if end < self.end(run) {
            let rest = Run {
                start: end,
                holder: giver,
            };
            self.runs.insert(run + 1, rest);
        }
        if before < start {
            self.runs.insert(run + 1, Run { start, holder });
        } else {
            self.runs[run].holder = holder;
        }
        self.runs.dedup_by(|next, kept| next.holder == kept.holder);
    }
}

#[cfg(test)]
mod tests {
    use super::*;
    use crate::random::Random;

    /// The same choice by trying every suffix against every place.
    fn slow(
        k: u8,
        holders: &mut [usize],
        giver: usize,
        receiver: usize,
        term: u8,
    ) -> Option<Suffix> {
        for place in 0..1u16 << (k - term) {
            let suffix = Suffix::at_place(k - term, place);
            let covered: Vec<u16> = (0..1 << k)
                .filter(|&s| suffix.matches(u32::from(s)))
                .collect();
            if covered.iter().all(|&s| holders[usize::from(s)] == giver) {
                covered
                    .iter()
                    .for_each(|&s| holders[usize::from(s)] = receiver);
                return Some(suffix);
            }
        }
        None
    }

    #[test]
    fn runs_find_what_a_full_search_finds() {
        let mut random = Random::new(7);
        for k in 1..=6 {
            for _ in 0..40 {
                let mut runs = Holdings::new(k, 0);
                let mut holders = vec![0; 1 << k];
                for _ in 0..20 {
                    let term = random.below(u64::from(k)) as u8;
                    let (giver, receiver) = (random.below(3) as usize, random.below(3) as usize);
                    let expected = slow(k, &mut holders, giver, receiver, term);
                    assert_eq!(runs.give(giver, receiver, term), expected);
                }
            }
        }
    }

    #[test]
    fn the_trap_of_value_before_place() {
        let mut holdings = Holdings::new(5, 0);
        let texts: Vec<Suffix> = (0..5).map(|_| holdings.give(0, 1, 0).unwrap()).collect();
        assert_eq!(texts[4], Suffix::read(b"*00100", 5).unwrap());
    }
}
