//! One service of a sheet: the rules that a rule sheet has for it, or the
//! backends that a percentage sheet has.

use crate::expansion::Rule;
use crate::packing::{Order, Service};
use crate::refusal::{Reason, Refusal};
use crate::table::Table;

/// The rules of a service, newest first, or refusal 8.
pub fn rules_of(table: &Table, service: u64) -> Result<Vec<Rule>, Refusal> {
    match table.lines_of(service) {
        [] => Err(Reason::UnknownService.at(0)),
        lines => Ok(lines.iter().map(|line| line.rule).collect()),
    }
}

/// A service of a percentage sheet, numbered from 1 by place, or refusal 8.
pub fn service_of(order: &Order, service: u64) -> Result<&Service, Refusal> {
    let index = service.checked_sub(1);
    let index = index.and_then(|index| usize::try_from(index).ok());
    let found = index.and_then(|index| order.services.get(index));
    found.ok_or(Reason::UnknownService.at(0))
}

#[cfg(test)]
mod tests {
    use super::*;
    use crate::lists::numbers_of;
    use crate::numerals::WHOLE;
    use crate::vectors::shapes::{named, service};
    use crate::{percentage_sheet, rule_sheet};

    const RULES: &[u8] = b"TABLE 5 5 29333392000\n1 *0 2\n1 * 3\n3 *100 2\n3 *0 1\n3 * 3\n";
    const SHEET: &[u8] =
        b"SHEET 5 2.5 5\nSERVICE 55 1:16.6667 2:33.3333 3:50\nSERVICE 45 3:25 9999:75\n";

    #[test]
    fn the_rules_of_a_service() {
        let table = rule_sheet::read(RULES).unwrap();
        let rules = rules_of(&table, 3).unwrap();
        assert_eq!(numbers_of(rules.iter()), [3, 4, 2, 1, 0, 1, 0, 0, 3]);
        let rules = rules_of(&table, 1).unwrap();
        assert_eq!(numbers_of(rules.iter()), [1, 0, 2, 0, 0, 3]);
        for service in [0, 2, 4, 257, u64::MAX] {
            let refused = rules_of(&table, service);
            assert_eq!(refused, Err(Reason::UnknownService.at(0)), "{service}");
        }
    }

    #[test]
    fn the_backends_of_a_service() {
        let order = percentage_sheet::read(SHEET).unwrap();
        let sixths = service(55, &[16_666_700, 33_333_300, WHOLE / 2]);
        assert_eq!(service_of(&order, 1), Ok(&sixths));
        let other = named(45, &[3, 9_999], &[WHOLE / 4, 3 * WHOLE / 4]);
        assert_eq!(service_of(&order, 2), Ok(&other));
        for service in [0, 3, 257, u64::MAX] {
            let refused = service_of(&order, service);
            assert_eq!(refused, Err(Reason::UnknownService.at(0)), "{service}");
        }
    }
}
