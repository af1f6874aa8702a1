//! Percentages of four decimals make the rules that they made before request 07,
//! and stairs and totals a hundred times larger: tried against plain packings and
//! updates in document 01's unit.

use crate::limits::MOST_CAPACITY;
use crate::numerals::WHOLE;
use crate::packing::{pack, Order, Packing, Service};
use crate::plain::{self, Run};
use crate::random::Random;
use crate::update::{each_within, Known};
use crate::vectors::loaded::{loaded, Loaded};
use crate::vectors::shapes::{self, weights_of, OrderShape, FORMER_WHOLE, FOURTH};

/// An order of four-place weights and tolerance.
fn order(random: &mut Random, bits: u64) -> Order {
    let shape = OrderShape {
        services: *random.pick(&[1, 1, 2, 3, 5]),
        backends: *random.pick(&[1, 3, 5, 12, 32]),
        bits,
    };
    let mut order = shapes::order(random, &shape);
    for service in &mut order.services {
        service.weights = weights_of(random, service.weights.len(), FOURTH);
    }
    order.tolerance -= order.tolerance % FOURTH;
    order
}

/// The same service in document 01's unit.
fn former(service: &Service) -> Service {
    let part = |weight: &u64| {
        assert_eq!(weight % FOURTH, 0);
        weight / FOURTH
    };
    Service {
        weights: service.weights.iter().map(part).collect(),
        ..service.clone()
    }
}

/// A packing in document 01's unit with each stair and the total a hundred times
/// larger.
fn enlarged(mut packing: Packing) -> Packing {
    packing.table.total *= 100;
    let stairs = packing.lists.iter_mut().flat_map(|list| &mut list.stairs);
    stairs.for_each(|stair| *stair *= 100);
    packing
}

#[test]
fn the_unit_is_a_hundredth_of_document_01s() {
    assert_eq!((FORMER_WHOLE, FOURTH), (1_000_000, 100));
    assert_eq!(WHOLE, 100 * FORMER_WHOLE);
}

#[test]
fn orders_make_the_same_lines_and_a_hundredfold_of_stairs_and_total() {
    let mut random = Random::new(73);
    let (mut rules, mut totals) = (0, 0);
    for turn in 0..1_500 {
        let order = order(&mut random, if turn % 25 == 0 { 12 } else { 7 });
        let before = Order {
            tolerance: order.tolerance / FOURTH,
            services: order.services.iter().map(former).collect(),
            ..order
        };
        let packing = pack(&order).unwrap();
        assert_eq!(packing, enlarged(plain::pack(FORMER_WHOLE, &before)));
        rules += packing.table.lines.len();
        totals += usize::from(packing.table.total > 0);
    }
    assert!(rules > 8_000 && totals > 1_000, "{rules} {totals}");
}

/// Of any decimals, so that the plain packing itself is tried.
#[test]
fn orders_make_what_a_plain_packing_makes() {
    let mut random = Random::new(79);
    for turn in 0..600 {
        let shape = OrderShape {
            services: random.within(1, 4),
            backends: *random.pick(&[3, 8, 32]),
            bits: if turn % 25 == 0 { 12 } else { 7 },
        };
        let mut order = shapes::order(&mut random, &shape);
        if turn % 3 == 0 {
            order.capacity = MOST_CAPACITY;
        }
        assert_eq!(pack(&order).unwrap(), plain::pack(WHOLE, &order));
    }
}

#[test]
fn updates_make_the_same_lists() {
    let mut random = Random::new(83);
    let mut made = 0;
    for _ in 0..1_000 {
        let k = random.within(1, 7) as u8;
        let Loaded {
            tolerance,
            old,
            mut new,
            ..
        } = loaded(&mut random, k);
        new.weights
            .iter_mut()
            .for_each(|weight| *weight -= *weight % FOURTH);
        new.weights[0] += WHOLE - new.weights.iter().sum::<u64>();
        let runs = plain::all_runs(FORMER_WHOLE, k, tolerance / FOURTH, &old, &former(&new));
        let before = plain::within(&runs);
        let known = Known::new(&old, &new.ids, &new.weights);
        let mut lists = Vec::new();
        each_within(
            k,
            tolerance - tolerance % FOURTH,
            &old,
            &known,
            |updated, list| {
                lists.push((updated.keep, updated.churn, list.clone()));
            },
        );
        let expected = |run: &&Run| (run.keep, run.churn, run.list.clone());
        let before: Vec<_> = before.iter().rev().map(expected).collect();
        assert_eq!(lists, before);
        made += lists.len();
    }
    assert!(made > 1_000, "{made}");
}
