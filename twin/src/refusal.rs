//! Turned-back work: the number of a refusal and its line.

use std::fmt;

/// Why work is turned back; the discriminant is the number of document 01.
#[derive(Clone, Copy, PartialEq, Eq, Debug)]
pub enum Reason {
    /// LF missing, keyword wrong, or too few or too many fields.
    Malformed = 1,
    /// A field not of its form or limits, or a suffix longer than k.
    BadField = 2,
    /// Weights don't sum to 100 percent.
    Unbalanced = 3,
    /// 65th service, 33rd backend or 33rd rule of a service.
    TooMany = 4,
    /// Only line 1.
    NoService = 5,
    /// C below the number of services.
    TableShort = 6,
    /// A lent buffer is too short for the result.
    ShortLoan = 7,
    /// A call on a service that isn't there.
    UnknownService = 8,
    /// A rule line breaks the order of the rule sheet.
    Order = 9,
    /// n isn't the number of rule lines.
    Miscount = 10,
    /// Text over its limit.
    TooLong = 11,
    /// Churn between sheets of unlike k.
    Depth = 12,
    /// No number of kept rules ends within the tolerance.
    Stuck = 13,
    /// The list of some stage has more lines than the capacity.
    Crowded = 14,
}

impl Reason {
    /// The refusal for this reason at a line.
    pub fn at(self, line: usize) -> Refusal {
        Refusal { reason: self, line }
    }
}

/// A reason and the line it is about, from 1; 0 is no line.
#[derive(Clone, Copy, PartialEq, Eq, Debug)]
pub struct Refusal {
    pub reason: Reason,
    pub line: usize,
}

impl Refusal {
    /// The number of document 01.
    pub fn number(self) -> u8 {
        self.reason as u8
    }
}

impl fmt::Display for Refusal {
    fn fmt(&self, out: &mut fmt::Formatter) -> fmt::Result {
        write!(out, "REFUSED {} {}", self.number(), self.line)
    }
}
