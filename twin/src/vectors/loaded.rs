//! Old lists of every shape with new weights, made at random.

use super::shapes::{ids, named, order, rule_table, some_places, weights, OrderShape};
use crate::expansion::{make_list, Rule};
use crate::limits::MOST_ID;
use crate::numerals::{PERCENT, WHOLE};
use crate::packing::{pack_checked, Order, Service};
use crate::random::Random;
use crate::services::{rules_of, service_of};
use crate::suffix::Suffix;
use crate::table::Table;
use crate::{percentage_sheet, rule_sheet};

/// An old list, newest rule first, and what is asked of it: a service with the
/// new ids and weights.
#[derive(Clone, Debug)]
pub struct Loaded {
    pub k: u8,
    pub tolerance: u64,
    pub old: Vec<Rule>,
    pub new: Service,
}

/// A case that isn't refused before it is found stuck.
pub fn loaded(random: &mut Random, k: u8) -> Loaded {
    let (old, new) = match random.below(3) {
        0 => by_hand(random, k),
        _ => expanded(random, k),
    };
    let tolerance = tolerance(random, k);
    Loaded {
        k,
        tolerance,
        old,
        new,
    }
}

/// Tolerances that lists of this k can meet, and all others.
fn tolerance(random: &mut Random, k: u8) -> u64 {
    let suffix = WHOLE >> k;
    match random.below(12) {
        0 | 1 => 0,
        2 => WHOLE,
        3 => some_places(random, WHOLE + 1),
        4..=6 => suffix / 2 + some_places(random, suffix / 2 + 1),
        7 => suffix,
        _ => some_places(random, 3 * PERCENT),
    }
}

/// The list of an expansion, often cut, with weights near its own.
fn expanded(random: &mut Random, k: u8) -> (Vec<Rule>, Service) {
    let most = *random.pick(&[3, 5, 8, 32]);
    let count = random.within(1, most) as usize;
    let before = named(1, &ids(random, count), &weights(random, count));
    let budget = match random.below(3) {
        0 => random.within(1, 32) as usize,
        _ => 32,
    };
    let list = make_list(k, 0, budget, &before.ids, &before.weights);
    let old: Vec<Rule> = list.rules.iter().rev().copied().collect();
    let after = changed(random, &before);
    (old, after)
}

/// Other weights; now and then a backend comes in or is retired, or all ids are
/// others.
pub fn changed(random: &mut Random, before: &Service) -> Service {
    let mut after = before.clone();
    let count = before.weights.len();
    move_weights(random, &mut after.weights);
    match random.below(10) {
        0 => come_in(random, &mut after),
        1 => after.weights.rotate_left(1),
        2 => after.weights = weights(random, count),
        3 | 4 => retire(random, &mut after),
        5 => {
            retire(random, &mut after);
            come_in(random, &mut after);
        }
        6 if random.once_in(3) => after.ids = ids(random, count),
        _ => (),
    }
    after
}

/// A new backend, most often with a part of another one's weight; none if there
/// are 32.
pub fn come_in(random: &mut Random, service: &mut Service) {
    let id = random.within(1, MOST_ID);
    let place = service.ids.partition_point(|&other| other < id);
    if service.ids.len() == 32 || service.ids.get(place) == Some(&id) {
        return;
    }
    let from = random.below(service.ids.len() as u64) as usize;
    let part = service.weights[from] / random.within(1, 4);
    service.weights[from] -= part;
    service.ids.insert(place, id);
    service.weights.insert(place, part);
}

/// Leaves a backend out; its weight goes to another one. The last one stays.
pub fn retire(random: &mut Random, service: &mut Service) {
    let count = service.ids.len() as u64;
    if count == 1 {
        return;
    }
    let place = random.below(count) as usize;
    service.ids.remove(place);
    let weight = service.weights.remove(place);
    service.weights[random.below(count - 1) as usize] += weight;
}

/// Parts of some weights go to others.
fn move_weights(random: &mut Random, after: &mut [u64]) {
    for _ in 0..random.below(4) {
        let from = random.below(after.len() as u64) as usize;
        let to = random.below(after.len() as u64) as usize;
        let moved = match random.below(6) {
            0 => after[from],
            1 => after[from] / 2,
            2 => PERCENT * random.below(30),
            _ => some_places(random, 4 * PERCENT),
        };
        let moved = moved.min(after[from]);
        after[from] -= moved;
        after[to] += moved;
    }
}

/// Suffixes with lengths that don't grow, to few backends, then `*`; the new
/// weights are near the shares, or any.
fn by_hand(random: &mut Random, k: u8) -> (Vec<Rule>, Service) {
    let (most_rules, most_backends) = (*random.pick(&[2, 5, 9, 32]), *random.pick(&[2, 3, 6, 32]));
    let rules = random.within(1, most_rules);
    let count = random.within(1, most_backends) as usize;
    let ids = ids(random, count);
    let old = any_list(random, k, rules, &ids);
    let new = match random.below(3) {
        0 => named(1, &ids, &weights(random, count)),
        1 => {
            let near = near_shares(k, &old, &ids);
            changed(random, &near)
        }
        _ => near_shares(k, &old[(rules / 2) as usize..], &ids),
    };
    (old, new)
}

/// The weights that the shares of these ids in a list make, cut to whole
/// units; the first has the rest.
pub fn near_shares(k: u8, rules: &[Rule], ids: &[u64]) -> Service {
    let shares = crate::count::shares(k, ids, rules.iter());
    let mut weights: Vec<u64> = shares.iter().map(|share| (share * WHOLE) >> k).collect();
    weights[0] += WHOLE - weights.iter().sum::<u64>();
    named(1, ids, &weights)
}

/// A list of so many rules: any lengths, equal ones, all of k bits, few
/// suffixes again and again.
pub fn any_list(random: &mut Random, k: u8, rules: u64, ids: &[u64]) -> Vec<Rule> {
    let bits = u64::from(k);
    let (least, places) = match random.below(5) {
        0 => (bits, 1 << 12),
        1 => (random.within(1, bits), 3),
        2 => (1, 2),
        _ => (1, 1 << 12),
    };
    let most = random.within(least, bits);
    let mut lengths: Vec<u64> = (1..rules).map(|_| random.within(least, most)).collect();
    lengths.sort_unstable_by(|a, b| b.cmp(a));
    lengths.push(0);
    let rule = |length: u64| {
        let place = random.below((1 << length).min(places)) as u16;
        Rule {
            suffix: Suffix::at_place(length as u8, place),
            backend: *random.pick(ids) as u16,
        }
    };
    lengths.into_iter().map(rule).collect()
}

/// The case that two sheets make of a service; nothing if they are refused before
/// any r is tried.
pub fn of_sheets(old: &[u8], sheet: &[u8], service: u64) -> Option<Loaded> {
    let table = rule_sheet::read(old).ok()?;
    let order = percentage_sheet::read(sheet).ok()?;
    let case = Loaded {
        k: table.k,
        tolerance: order.tolerance,
        old: rules_of(&table, service).ok()?,
        new: service_of(&order, service).ok()?.clone(),
    };
    (u64::from(table.k) == order.k).then_some(case)
}

/// A rule sheet, and a percentage sheet with new weights for its services; now
/// and then of another k, without its last service or with one backend.
pub fn two_sheets(random: &mut Random) -> (Table, Order) {
    let (table, mut order) = match random.below(3) {
        0 => any_sheets(random),
        _ => packed_sheets(random),
    };
    order.tolerance = tolerance(random, table.k);
    match random.below(24) {
        0 | 1 => order.k = random.within(1, 12),
        2 if order.services.len() > 1 => drop(order.services.pop()),
        3 => order.services[0] = named(1, &order.services[0].ids[..1], &[WHOLE]),
        _ => (),
    }
    (table, order)
}

/// Services of any suffixes, and weights near their shares or any.
fn any_sheets(random: &mut Random) -> (Table, Order) {
    let k = random.within(1, 12);
    let table = rule_table(random, k, 3);
    let last = table.lines.last().map_or(1, |line| line.service);
    let mut services = Vec::new();
    for number in 1..=u64::from(last) {
        let rules: Vec<Rule> = table
            .lines_of(number)
            .iter()
            .map(|line| line.rule)
            .collect();
        let mut ids: Vec<u64> = rules.iter().map(|rule| rule.backend.into()).collect();
        ids.sort_unstable();
        ids.dedup();
        services.push(match ids.is_empty() {
            true => named(1, &[random.within(1, MOST_ID)], &[WHOLE]),
            false => {
                let near = near_shares(table.k, &rules, &ids);
                changed(random, &near)
            }
        });
    }
    let order = Order {
        k,
        tolerance: 0,
        capacity: 64,
        services,
    };
    (table, order)
}

/// A packed order, and the order with other weights.
fn packed_sheets(random: &mut Random) -> (Table, Order) {
    let shape = OrderShape {
        services: random.within(1, 3),
        backends: 5,
        bits: 12,
    };
    let mut order = order(random, &shape);
    if random.once_in(2) {
        order.capacity = 64;
    }
    let table = pack_checked(&order).table;
    for service in &mut order.services {
        *service = changed(random, service);
    }
    (table, order)
}

/// Numbers at the limits of a list's numbers, and far beyond them.
const NUMBERS: [u64; 16] = [
    0,
    1,
    2,
    11,
    12,
    13,
    31,
    32,
    33,
    4_095,
    4_096,
    9_999,
    10_000,
    1 << 32,
    1 << 63,
    u64::MAX,
];

/// Now and then one thing wrong in a list's numbers, or two.
pub fn spoil_list(random: &mut Random, numbers: &mut Vec<u64>) {
    for _ in 0..*random.pick(&[0, 1, 1, 1, 2]) {
        if numbers.len() < 3 {
            return;
        }
        let at = random.below(numbers.len() as u64) as usize;
        let rule = at / 3 * 3;
        match random.below(8) {
            0..=2 => numbers[at] = *random.pick(&NUMBERS),
            3 => drop(numbers.remove(at)),
            4 => numbers.truncate(at),
            5 if rule + 3 <= numbers.len() => drop(numbers.drain(rule..rule + 3)),
            6 => numbers.splice(rule..rule, [0, 0, 1]).for_each(drop),
            _ => numbers[rule] = random.below(4),
        }
    }
}
