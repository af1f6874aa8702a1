//! A table of rules, and the order that its lines keep.

use crate::expansion::Rule;
use crate::limits::{MOST_RULES, MOST_SERVICES};
use crate::refusal::Reason;

/// One rule line: a service, numbered from 1, and its rule.
#[derive(Clone, Copy, PartialEq, Eq, Debug)]
pub struct RuleLine {
    pub service: u8,
    pub rule: Rule,
}

/// What a rule sheet says; n is the number of its lines.
#[derive(Clone, PartialEq, Eq, Debug)]
pub struct Table {
    pub k: u8,
    pub total: u64,
    pub lines: Vec<RuleLine>,
}

impl Table {
    /// The lines of a service, newest rule first; none if it isn't there.
    pub fn lines_of(&self, service: u64) -> &[RuleLine] {
        let before = |line: &RuleLine| u64::from(line.service) < service;
        let start = self.lines.partition_point(before);
        let rest = &self.lines[start..];
        let end = rest.partition_point(|line| u64::from(line.service) == service);
        &rest[..end]
    }

    /// The backend of the first matching line of a service.
    pub fn backend(&self, service: u64, address: u32) -> Option<u16> {
        let mut rules = self.lines_of(service).iter().map(|line| line.rule);
        let first = rules.find(|rule| rule.suffix.matches(address))?;
        Some(first.backend)
    }

    /// How many of the 2^k suffixes of a service the first matching line gives to
    /// a backend.
    pub fn share(&self, service: u64, backend: u16) -> u32 {
        let lines = self.lines_of(service);
        let given = |&s: &u32| {
            let first = lines.iter().find(|line| line.rule.suffix.matches(s));
            first.is_some_and(|line| line.rule.backend == backend)
        };
        (0..1 << self.k).filter(given).count() as u32
    }

    /// The backend of each of the 2^k suffixes of a service, in the order of
    /// their tree places: older rules first, so that newer ones overwrite.
    pub fn backends_by_place(&self, service: u64) -> Vec<u16> {
        let mut backends = vec![0; 1 << self.k];
        for line in self.lines_of(service).iter().rev() {
            let suffix = line.rule.suffix;
            let size = 1 << (self.k - suffix.length());
            let start = usize::from(suffix.place()) * size;
            backends[start..start + size].fill(line.rule.backend);
        }
        backends
    }
}

/// What is known of the lines so far: how many each service has, and the
/// service and suffix length of the last line.
pub struct LineOrder {
    counts: [u8; MOST_SERVICES as usize + 1],
    last: Option<(u8, u8)>,
}

impl LineOrder {
    /// Before the first line.
    pub fn new() -> LineOrder {
        LineOrder {
            counts: [0; MOST_SERVICES as usize + 1],
            last: None,
        }
    }

    /// Takes the next line in, or says why not: the 33rd rule, then order.
    pub fn admit(&mut self, line: &RuleLine) -> Result<(), Reason> {
        let count = &mut self.counts[usize::from(line.service)];
        if u64::from(*count) == MOST_RULES {
            return Err(Reason::TooMany);
        }
        let length = line.rule.suffix.length();
        let follows = match self.last {
            None => true,
            Some((service, before)) if service == line.service => before > 0 && length <= before,
            Some((service, before)) => before == 0 && service < line.service,
        };
        if !follows {
            return Err(Reason::Order);
        }
        *count += 1;
        self.last = Some((line.service, length));
        Ok(())
    }

    /// Whether the last line is a `*`.
    pub fn complete(&self) -> bool {
        self.last.is_some_and(|(_, length)| length == 0)
    }
}

impl Default for LineOrder {
    fn default() -> LineOrder {
        LineOrder::new()
    }
}
