//! Vectors for the packing of services into one table.

use super::expansion::suffix_text;
use super::records::{Record, Records};
use super::rows::{self, add_order as add};
use super::shapes::{
    self, order, service, spoil_ids, OrderShape, FINE_SIXTHS, FINE_THIRDS, FOURTH, QUARTERS, SIXTHS,
};
use crate::limits::MOST_ID;
use crate::numerals::{PERCENT, WHOLE};
use crate::packing::{Order, Packing, Service};
use crate::random::Random;
use crate::refusal::Refusal;

/// What the twin says to one record; nothing if the record is of no kind.
pub fn answer(record: &Record) -> Option<String> {
    let text = std::str::from_utf8(record.payload).ok()?;
    match (record.kind, record.numbers.as_slice()) {
        ("Q", &[k, tolerance, capacity]) => rows::answer(k, tolerance, capacity, text),
        _ => None,
    }
}

/// The packing, or the number of the refusal.
pub(super) fn shown(packing: Result<Packing, Refusal>) -> String {
    match packing {
        Ok(packing) => packing_text(&packing),
        Err(refusal) => format!("refused {}", refusal.number()),
    }
}

/// The total, the grants, and the lines in the order of the rule sheet.
fn packing_text(packing: &Packing) -> String {
    let mut text = format!("total {} grants", packing.table.total);
    for grant in &packing.grants {
        text += &format!(" {grant}");
    }
    text += " lines ";
    for (index, line) in packing.table.lines.iter().enumerate() {
        let comma = if index == 0 { "" } else { "," };
        let suffix = suffix_text(line.rule.suffix);
        text += &format!("{comma}{} {suffix} {}", line.service, line.rule.backend);
    }
    text
}

/// Adds all of them.
pub fn add_all(records: &mut Records) {
    let mut random = Random::new(3);
    listed(records);
    at_random(records, &mut random);
    large(records, &mut random);
    refused(records);
    refused_at_random(records, &mut random);
    rows::add_all(records);
}

/// The sample sheet with every capacity, the traps, volumes of zero, and products
/// that are the largest and nearly equal.
fn listed(records: &mut Records) {
    let sample = [service(55, &SIXTHS), service(45, &QUARTERS)];
    let fine = [service(55, &FINE_SIXTHS), service(45, &FINE_THIRDS)];
    let mut try_all = |k, tolerance, services: &[Service]| {
        for capacity in (1..=9).chain([2_047, 2_048]) {
            let services = services.to_vec();
            add(
                records,
                &Order {
                    k,
                    tolerance,
                    capacity,
                    services,
                },
            );
        }
    };
    try_all(5, 2 * PERCENT, &sample);
    try_all(5, 1_041_667, &fine);
    try_all(5, 0, &[service(0, &SIXTHS), service(0, &QUARTERS)]);
    try_all(5, 0, &[service(0, &SIXTHS), service(1, &QUARTERS)]);
    try_all(5, 0, &[service(10_000, &[WHOLE]), service(1, &QUARTERS)]);
    try_all(1, 0, &vec![service(7, &[WHOLE / 2, WHOLE / 2]); 3]);
    try_all(5, 0, &vec![service(7, &SIXTHS); 4]);
    try_all(4, 0, &[service(2, &QUARTERS), service(4, &QUARTERS)]);
    try_all(12, 0, &[service(10_000, &[0, 0, WHOLE, 0])]);
    let (below, half, above) = (WHOLE / 2 - 1, WHOLE / 2, WHOLE / 2 + 1);
    let near = [[above, below], [half, half], [below, above]];
    try_all(12, 0, &near.map(|weights| service(10_000, &weights)));
}

/// Orders of a few services.
fn at_random(records: &mut Records, random: &mut Random) {
    for _ in 0..290 {
        let shape = OrderShape {
            services: random.within(1, 8),
            backends: *random.pick(&[2, 3, 5, 8, 32]),
            bits: 12,
        };
        add(records, &order(random, &shape));
    }
}

/// Orders of many services, with little and much capacity.
fn large(records: &mut Records, random: &mut Random) {
    for (services, backends, capacity) in [
        (64, 32, 2_048),
        (64, 32, 64),
        (64, 8, 300),
        (64, 1, 2_048),
        (63, 16, 2_047),
        (40, 32, 500),
        (64, 3, 65),
    ] {
        let shape = OrderShape {
            services,
            backends,
            bits: 12,
        };
        let mut order = order(random, &shape);
        (order.k, order.tolerance, order.capacity) = (12, 0, capacity);
        add(records, &order);
    }
    let services = (0..64).map(|i| service(10_000 - i, &[WHOLE / 32; 32]));
    let order = Order {
        k: 12,
        tolerance: 0,
        capacity: 2_048,
        services: services.collect(),
    };
    add(records, &order);
    add(records, &shapes::largest_total());
}

/// Each refusal, and each before the ones that come after it.
fn refused(records: &mut Records) {
    let good = service(1, &[WHOLE]);
    let mut add_order = |k, tolerance, capacity, services: Vec<Service>| {
        let order = Order {
            k,
            tolerance,
            capacity,
            services,
        };
        add(records, &order);
    };
    for k in [0, 13, u64::MAX] {
        add_order(k, 0, 1, vec![good.clone()]);
    }
    for tolerance in [WHOLE + 1, u64::MAX] {
        add_order(5, tolerance, 1, vec![good.clone()]);
    }
    for capacity in [0, 2_049, u64::MAX] {
        add_order(5, 0, capacity, vec![good.clone()]);
    }
    for count in [0, 1, 63, 64, 65, 66] {
        for capacity in [1, 62, 63, 64, 65] {
            add_order(5, 0, capacity, vec![good.clone(); count]);
        }
    }
    refused_services(records, &good);
}

/// A bad service alone, after a good one, and before a worse one.
fn refused_services(records: &mut Records, good: &Service) {
    let mut add_order = |k, capacity, services: &[&Service]| {
        let order = Order {
            k,
            tolerance: 0,
            capacity,
            services: services.iter().map(|&service| service.clone()).collect(),
        };
        add(records, &order);
    };
    for bad in [
        service(10_001, &[WHOLE]),
        service(u64::MAX, &[0]),
        service(10_000, &[WHOLE + 1]),
        service(10_000, &[WHOLE, 1]),
        service(10_001, &[WHOLE / 32; 33]),
        service(0, &[WHOLE - 1]),
        service(0, &[WHOLE - FOURTH]),
        service(0, &[u64::MAX, WHOLE + 1]),
    ] {
        add_order(5, 1, &[&bad]);
        add_order(5, 1, &[good, &bad]);
        add_order(5, 2, &[&bad, &service(10_001, &[0])]);
        add_order(13, 2, &[&bad]);
    }
}

/// Good orders with one number spoilt.
fn refused_at_random(records: &mut Records, random: &mut Random) {
    for _ in 0..60 {
        let shape = OrderShape {
            services: random.within(1, 6),
            backends: 6,
            bits: 12,
        };
        let mut order = order(random, &shape);
        let at = random.below(shape.services) as usize;
        let service = &mut order.services[at];
        match random.below(7) {
            0 => service.volume = random.within(10_000, 10_002),
            1 => service.weights[0] = random.any_size(),
            2 => {
                service.ids.push(MOST_ID);
                service.weights.push(*random.pick(&[1, FOURTH]));
            }
            3 => order.k = random.within(12, 14),
            4 => order.capacity = shape.services - 1,
            5 => spoil_ids(random, &mut service.ids),
            _ => *service = shapes::service(1, &vec![0; random.within(31, 34) as usize]),
        }
        add(records, &order);
    }
}
