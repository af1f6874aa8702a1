//! The packing of services into one table (document 01, "Packing").

use crate::expansion::{check_weights, make_list, Expansion};
use crate::limits::{
    MOST_BACKENDS, MOST_BITS, MOST_CAPACITY, MOST_RULES, MOST_SERVICES, MOST_VOLUME,
};
use crate::numerals::WHOLE;
use crate::refusal::{Reason, Refusal};
use crate::table::{RuleLine, Table};
use std::cmp::Reverse;
use std::collections::BinaryHeap;

/// A service: its volume, and the id and the weight in hundred-millionths of
/// each backend.
#[derive(Clone, PartialEq, Eq, Debug)]
pub struct Service {
    pub volume: u64,
    pub ids: Vec<u64>,
    pub weights: Vec<u64>,
}

/// What a percentage sheet says; C is the capacity of the table.
#[derive(Clone, PartialEq, Eq, Debug)]
pub struct Order {
    pub k: u64,
    pub tolerance: u64,
    pub capacity: u64,
    pub services: Vec<Service>,
}

/// A packed table, the grant of each service, and how each list ended.
#[derive(Clone, PartialEq, Eq, Debug)]
pub struct Packing {
    pub table: Table,
    pub grants: Vec<usize>,
    pub lists: Vec<Expansion>,
}

/// The packing without a text: checks the order as its sheet would be.
pub fn pack(order: &Order) -> Result<Packing, Refusal> {
    check(order).map_err(|reason| reason.at(0))?;
    Ok(pack_checked(order))
}

/// The checks of the percentage sheet in the order of its lines.
fn check(order: &Order) -> Result<(), Reason> {
    check_head(order)?;
    for (index, service) in order.services.iter().enumerate() {
        check_service(index, service)?;
    }
    check_size(order)
}

/// The checks of line 1.
pub fn check_head(order: &Order) -> Result<(), Reason> {
    let limits = [
        (order.k, 1, MOST_BITS),
        (order.tolerance, 0, WHOLE),
        (order.capacity, 1, MOST_CAPACITY),
    ];
    if limits
        .iter()
        .any(|&(number, lo, hi)| number < lo || number > hi)
    {
        return Err(Reason::BadField);
    }
    Ok(())
}

/// The checks of one SERVICE line; there is an id for each weight.
fn check_service(index: usize, service: &Service) -> Result<(), Reason> {
    if index as u64 >= MOST_SERVICES || service.weights.len() as u64 > MOST_BACKENDS {
        Err(Reason::TooMany)
    } else if service.weights.is_empty() || service.ids.len() != service.weights.len() {
        Err(Reason::Malformed)
    } else {
        check_numbers(service)
    }
}

/// The checks of a SERVICE line's fields: the volume, the ids and the
/// weights, their sum.
pub fn check_numbers(service: &Service) -> Result<(), Reason> {
    if service.volume > MOST_VOLUME {
        return Err(Reason::BadField);
    }
    check_weights(&service.ids, &service.weights)
}

/// The checks after the lines: no service, then a capacity below the services.
pub fn check_size(order: &Order) -> Result<(), Reason> {
    if order.services.is_empty() {
        Err(Reason::NoService)
    } else if order.capacity < order.services.len() as u64 {
        Err(Reason::TableShort)
    } else {
        Ok(())
    }
}

/// The packing of an order that keeps the rules of document 01.
pub fn pack_checked(order: &Order) -> Packing {
    let k = order.k as u8;
    let list = |service: &Service| {
        let Service { ids, weights, .. } = service;
        make_list(k, order.tolerance, MOST_RULES as usize, ids, weights)
    };
    let lists: Vec<Expansion> = order.services.iter().map(list).collect();
    let grants = grants(order, &lists);
    let table = Table {
        k,
        total: total(order, &lists, &grants),
        lines: granted_lines(&lists, &grants),
    };
    Packing {
        table,
        grants,
        lists,
    }
}

/// One rule each; then the next rule to the greatest volume x drop of the next
/// stair, the lowest number if equal, up to C rules or a product of zero.
fn grants(order: &Order, lists: &[Expansion]) -> Vec<usize> {
    let mut grants = vec![1; lists.len()];
    let product = |index: usize, grant: usize| {
        let stairs = &lists[index].stairs;
        let drop = stairs.get(grant).map_or(0, |next| stairs[grant - 1] - next);
        (order.services[index].volume * drop, Reverse(index))
    };
    let mut next: BinaryHeap<_> = (0..lists.len()).map(|index| product(index, 1)).collect();
    for _ in lists.len() as u64..order.capacity {
        let Some(mut best) = next.peek_mut() else {
            break;
        };
        let (gain, Reverse(index)) = *best;
        if gain == 0 {
            break;
        }
        grants[index] += 1;
        *best = product(index, grants[index]);
    }
    grants
}

/// The sum of volume x imbalance.
fn total(order: &Order, lists: &[Expansion], grants: &[usize]) -> u64 {
    let parts = order.services.iter().zip(lists).zip(grants);
    parts
        .map(|((service, list), &grant)| service.volume * list.stairs[grant - 1])
        .sum()
}

/// The table of grants: that many oldest rules of each list, or the whole list
/// if it is shorter; services ascending, newest rule first.
pub fn granted_lines(lists: &[Expansion], grants: &[usize]) -> Vec<RuleLine> {
    let mut lines = Vec::with_capacity(grants.iter().sum());
    for (index, (list, &grant)) in lists.iter().zip(grants).enumerate() {
        let kept = &list.rules[..grant.min(list.rules.len())];
        lines.extend(kept.iter().rev().map(|&rule| RuleLine {
            service: index as u8 + 1,
            rule,
        }));
    }
    lines
}

#[cfg(test)]
mod tests {
    use super::*;
    use crate::count;
    use crate::numerals::PERCENT;
    use crate::random::Random;
    use crate::vectors::shapes::{named, order, service, OrderShape};

    /// The counted total, from k, volumes, weights and rule lines alone.
    fn counted_total(order: &Order, lines: &[RuleLine]) -> u64 {
        let mut total = 0;
        for (index, service) in order.services.iter().enumerate() {
            let own = lines
                .iter()
                .filter(|line| usize::from(line.service) == index + 1);
            let k = order.k as u8;
            let shares = count::shares(k, &service.ids, own.map(|line| &line.rule));
            total += service.volume * count::imbalance(k, &service.weights, &shares);
        }
        total
    }

    /// All grants of at least one rule to each service and at most C in all.
    fn rivals(services: usize, capacity: usize) -> Vec<Vec<usize>> {
        if services == 0 {
            return vec![Vec::new()];
        }
        let mut all = Vec::new();
        for grant in 1..=capacity.saturating_sub(services - 1) {
            for mut rest in rivals(services - 1, capacity - grant) {
                rest.push(grant);
                all.push(rest);
            }
        }
        all
    }

    #[test]
    fn case_p7_and_figure_9() {
        let order = Order {
            k: 5,
            tolerance: 2 * PERCENT,
            capacity: 5,
            services: vec![
                service(55, &[16_666_700, 33_333_300, WHOLE / 2]),
                service(45, &[WHOLE / 4, WHOLE / 4, WHOLE / 2]),
            ],
        };
        let packing = pack(&order).unwrap();
        assert_eq!(packing.grants, [2, 3]);
        assert_eq!(packing.table.total, 29_333_392_000);
        let whole = 32 * WHOLE * 100;
        assert_eq!(10_000 * packing.table.total / whole, 916);
    }

    #[test]
    fn one_service_at_its_end_stops_nothing() {
        let order = Order {
            k: 2,
            tolerance: 0,
            capacity: 2_048,
            services: vec![service(9_999, &[WHOLE]), service(1, &[WHOLE / 4; 4])],
        };
        assert_eq!(pack(&order).unwrap().grants, [1, 4]);
    }

    #[test]
    fn equal_products_go_to_the_lowest_service() {
        let order = Order {
            k: 1,
            tolerance: 0,
            capacity: 4,
            services: vec![service(7, &[WHOLE / 2, WHOLE / 2]); 3],
        };
        assert_eq!(pack(&order).unwrap().grants, [2, 1, 1]);
    }

    #[test]
    fn no_rival_grants_have_a_smaller_counted_total() {
        let mut random = Random::new(17);
        for _ in 0..250 {
            let shape = OrderShape {
                services: random.within(1, 3),
                backends: 5,
                bits: 4,
            };
            let mut order = order(&mut random, &shape);
            order.capacity = random.within(order.services.len() as u64, 9);
            let packing = pack(&order).unwrap();
            let total = counted_total(&order, &packing.table.lines);
            assert_eq!(total, packing.table.total);
            assert!(packing.table.lines.len() as u64 <= order.capacity);
            for grants in rivals(order.services.len(), order.capacity as usize) {
                let lines = granted_lines(&packing.lists, &grants);
                assert!(counted_total(&order, &lines) >= total);
            }
        }
    }

    #[test]
    fn refusals_in_the_order_of_the_sheet() {
        let good = service(1, &[WHOLE]);
        let number = |k, tolerance, capacity, services: Vec<Service>| {
            let order = Order {
                k,
                tolerance,
                capacity,
                services,
            };
            pack(&order).map_or_else(Refusal::number, |_| 0)
        };
        assert_eq!(number(0, 0, 1, vec![good.clone(); 65]), 2);
        assert_eq!(number(1, WHOLE + 1, 1, vec![]), 2);
        assert_eq!(number(1, 0, 0, vec![]), 2);
        assert_eq!(number(1, 0, 2_049, vec![]), 2);
        assert_eq!(number(1, 0, 1, vec![]), 5);
        assert_eq!(number(1, 0, 1, vec![good.clone(); 65]), 4);
        assert_eq!(number(1, 0, 63, vec![good.clone(); 64]), 6);
        assert_eq!(number(1, 0, 64, vec![good; 64]), 0);
        assert_eq!(number(1, 0, 1, vec![service(10_001, &[0; 33])]), 4);
        assert_eq!(number(1, 0, 1, vec![service(10_001, &[0])]), 2);
        assert_eq!(number(1, 0, 1, vec![service(1, &[0])]), 3);
        assert_eq!(number(1, 0, 1, vec![named(1, &[2, 1], &[0; 2])]), 2);
        assert_eq!(number(1, 0, 1, vec![named(10_001, &[1], &[0; 2])]), 1);
    }
}
