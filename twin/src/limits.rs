//! The limits of document 01 ("Units and limits", "Rule sheet and program") and
//! of requests 04, 06 and 07.

use crate::numerals::WHOLE;

/// The most suffix bits, k.
pub const MOST_BITS: u64 = crate::suffix::MOST_BITS as u64;
/// The most backends of a service.
pub const MOST_BACKENDS: u64 = 32;
/// The greatest id of a backend.
pub const MOST_ID: u64 = 9_999;
/// The most services of a sheet.
pub const MOST_SERVICES: u64 = 64;
/// The most rules of one service.
pub const MOST_RULES: u64 = 32;
/// The greatest capacity C, and so the most rules of a table.
pub const MOST_CAPACITY: u64 = 2_048;
/// The most suffixes that a stage of a change may be allowed to move.
pub const MOST_MOVED: u64 = 4_096;
/// The greatest volume of a service.
pub const MOST_VOLUME: u64 = 10_000;
/// The greatest total of a table: no service's imbalance is above all of its tree.
pub const MOST_TOTAL: u64 = MOST_SERVICES * MOST_VOLUME * (WHOLE << MOST_BITS);
/// The most bytes of a text.
pub const MOST_BYTES: usize = 65_536;

#[cfg(test)]
mod tests {
    use super::*;

    #[test]
    fn the_greatest_total_is_that_of_request_07() {
        assert_eq!(MOST_TOTAL, 262_144_000_000_000_000);
    }
}
