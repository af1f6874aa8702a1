//! Vectors `Q`: orders in four rows, the volumes, the sizes, the ids and the
//! weights.

use super::expansion::{rows, rows_text};
use super::packing::shown;
use super::records::Records;
use super::shapes::{
    order, service, spoil_ids, OrderShape, FORMER_WHOLE, FOURTH, QUARTERS, SIXTHS,
};
use crate::numerals::{PERCENT, WHOLE};
use crate::packing::Order;
use crate::random::Random;
use crate::rows::{pack_rows, rows_of, Rows};

/// The packing, or the number of the refusal.
pub fn answer(k: u64, tolerance: u64, capacity: u64, text: &str) -> Option<String> {
    let [volumes, sizes, ids, weights] = rows(text)?;
    let rows = Rows {
        volumes,
        sizes,
        ids,
        weights,
    };
    Some(shown(pack_rows(k, tolerance, capacity, &rows)))
}

/// Adds all of them.
pub fn add_all(records: &mut Records) {
    let mut random = Random::new(9);
    listed(records);
    good(records, &mut random);
    heads(records);
    unlike_rows(records);
    before_others(records);
    unlike_ids(records);
    at_limits(records);
    spoilt(records, &mut random);
}

fn add(records: &mut Records, head: [u64; 3], rows: &Rows) {
    let [k, tolerance, capacity] = head;
    let payload = rows_text(&[&rows.volumes, &rows.sizes, &rows.ids, &rows.weights]);
    let header = format!("Q {k} {tolerance} {capacity}");
    records.add(&header, payload.as_bytes());
}

pub(super) fn add_order(records: &mut Records, order: &Order) {
    let head = [order.k, order.tolerance, order.capacity];
    add(records, head, &rows_of(&order.services));
}

fn add_rows(records: &mut Records, volumes: &[u64], sizes: &[u64], weights: &[u64]) {
    let rows = Rows {
        volumes: volumes.to_vec(),
        sizes: sizes.to_vec(),
        ids: ids_of(sizes, weights.len()),
        weights: weights.to_vec(),
    };
    add(records, [5, 0, 64], &rows);
}

/// So many ids, which begin at 1 again with each size.
fn ids_of(sizes: &[u64], count: usize) -> Vec<u64> {
    let sized = sizes.iter().flat_map(|&size| 1..=size);
    sized.chain(1..).take(count).collect()
}

fn sample() -> Rows {
    rows_of(&[service(55, &SIXTHS), service(45, &QUARTERS)])
}

/// The sample with every capacity.
fn listed(records: &mut Records) {
    for capacity in (0..=8).chain([2_048, 2_049]) {
        add(records, [5, 2 * PERCENT, capacity], &sample());
    }
}

/// Orders that keep the rules, most of a few services.
fn good(records: &mut Records, random: &mut Random) {
    for turn in 0..60 {
        let shape = OrderShape {
            services: random.within(1, 6),
            backends: *random.pick(&[1, 2, 5, 8, 32]),
            bits: 12,
        };
        let mut order = order(random, &shape);
        order.k = 1 + turn % 12;
        add_order(records, &order);
    }
    let many = OrderShape {
        services: 64,
        backends: 6,
        bits: 12,
    };
    add_order(records, &order(random, &many));
    let full = rows_of(&vec![service(10_000, &[WHOLE / 32; 32]); 64]);
    add(records, [4, 0, 2_048], &full);
    add(records, [4, 0, 63], &full);
}

/// k, tolerance and C out of their limits, before everything else.
fn heads(records: &mut Records) {
    let misfit = Rows {
        sizes: vec![33; 65],
        ..sample()
    };
    for rows in [&sample(), &Rows::default(), &misfit] {
        for head in [
            [0, 0, 2],
            [13, 0, 2],
            [u64::MAX, 0, 2],
            [12, WHOLE + 1, 2],
            [12, u64::MAX, 2],
            [12, WHOLE, 0],
            [12, WHOLE, 2_049],
            [12, WHOLE, u64::MAX],
            [12, WHOLE, 2],
        ] {
            add(records, head, rows);
        }
    }
}

/// Rows of unlike lengths, each of them empty in turn, and sizes at their limits.
fn unlike_rows(records: &mut Records) {
    let one = [1].as_slice();
    for volumes in [&[], one, &[1, 1]] {
        for sizes in [&[], one, &[1, 1]] {
            for weights in [&[], [WHOLE].as_slice(), &[WHOLE; 2]] {
                add_rows(records, volumes, sizes, weights);
            }
        }
    }
    for size in [0, 1, 2, 3, 31, 32, 33, 1 << 32, (1 << 32) + 2, u64::MAX] {
        add_rows(records, one, &[size], &[WHOLE / 2; 2]);
        add_rows(records, &[1, 1], &[size, 2], &[WHOLE / 2; 4]);
    }
    for (size, count) in [(31, 32), (32, 31), (32, 32), (32, 33), (33, 32), (33, 33)] {
        add_rows(records, one, &[size], &vec![WHOLE / 32; count]);
    }
}

/// One refusal before another, in a service and from service to service.
fn before_others(records: &mut Records) {
    let (bad, high) = (10_001, WHOLE + 1);
    let cases: [(&[u64], &[u64], &[u64]); 29] = [
        (&[1], &[40], &[0; 35]),
        (&[bad], &[33], &[high; 32]),
        (&[bad], &[0], &[]),
        (&[bad], &[0], &[high]),
        (&[bad], &[], &[high]),
        (&[bad], &[3], &[high; 2]),
        (&[bad], &[2], &[high; 2]),
        (&[bad], &[1], &[0]),
        (&[bad], &[1], &[WHOLE, 1]),
        (&[u64::MAX], &[1], &[WHOLE]),
        (&[1], &[2], &[high, 0]),
        (&[1], &[2], &[0, high]),
        (&[1], &[2], &[u64::MAX, high]),
        (&[1], &[2], &[WHOLE, WHOLE]),
        (&[1], &[2], &[WHOLE, 1]),
        (&[1], &[2], &[WHOLE - 1, 0]),
        (&[1], &[2], &[FOURTH, WHOLE]),
        (&[1], &[2], &[FOURTH, WHOLE - 2 * FOURTH]),
        (&[1], &[2], &[FORMER_WHOLE / 2; 2]),
        (&[1], &[2], &[0, WHOLE - 1, 1]),
        (&[bad, 1], &[1], &[WHOLE]),
        (&[10_000, 1], &[1], &[WHOLE]),
        (&[1], &[1, 1], &[0, WHOLE]),
        (&[1], &[1, 33], &[WHOLE]),
        (&[1, bad], &[1, 33], &[WHOLE, 0]),
        (&[1, bad], &[1, 2], &[WHOLE - 1, 0]),
        (&[1, bad], &[1, 2], &[WHOLE, 0]),
        (&[1, bad], &[1, 1], &[WHOLE, 0, 0]),
        (&[1, 1], &[1, 1], &[WHOLE, 7, 0]),
    ];
    for (volumes, sizes, weights) in cases {
        add_rows(records, volumes, sizes, weights);
    }
    let three = rows_of(&vec![service(1, &[WHOLE]); 3]);
    let mut over = three.clone();
    over.weights.push(0);
    for capacity in [2, 3] {
        add(records, [5, 0, capacity], &three);
        add(records, [5, 0, capacity], &over);
    }
}

/// Sizes of services and their ids; the weights are two for each.
const SIZED: [(&[u64], &[u64]); 20] = [
    (&[2], &[1, 9_999]),
    (&[2], &[9_998, 9_999]),
    (&[2], &[]),
    (&[2], &[1]),
    (&[2], &[1, 2, 3]),
    (&[2], &[2, 1, 3]),
    (&[2], &[0, 1]),
    (&[2], &[1, 0]),
    (&[2], &[1, 10_000]),
    (&[2], &[1, u64::MAX]),
    (&[2], &[5, 5]),
    (&[2], &[5, 4]),
    (&[2, 2], &[1, 2, 1, 2]),
    (&[2, 2], &[8, 9, 6, 7]),
    (&[2, 2], &[1, 2, 2, 1]),
    (&[2, 2], &[1, 2, 3]),
    (&[2, 2], &[2, 1, 3]),
    (&[2, 2], &[1, 2, 3, 4, 5]),
    (&[33], &[1]),
    (&[0], &[1]),
];

/// Ids that are too few or too many for their sizes, out of their limits, equal
/// or out of line, in one service and from service to service.
fn unlike_ids(records: &mut Records) {
    let half = [WHOLE / 2; 2];
    for (sizes, ids) in SIZED {
        for (volume, weights) in [(1, half), (1, [1; 2]), (10_001, half), (1, [WHOLE + 1; 2])] {
            let rows = Rows {
                volumes: vec![volume; sizes.len()],
                sizes: sizes.to_vec(),
                ids: ids.to_vec(),
                weights: weights.repeat(sizes.len()),
            };
            add(records, [5, 0, 64], &rows);
        }
    }
    for ids in [0, 1, 31, 32, 33, 64] {
        let rows = Rows {
            volumes: vec![1],
            sizes: vec![32],
            ids: (1..=ids).collect(),
            weights: vec![WHOLE / 32; 32],
        };
        add(records, [5, 0, 64], &rows);
    }
}

/// 63 to 70 services, with all of their numbers or without some.
fn at_limits(records: &mut Records) {
    let row = |count: usize, number: u64| vec![number; count];
    for services in [63, 64, 65, 66, 70] {
        for (volumes, sizes, weights) in [
            (services, services, services),
            (services, services, services + 1),
            (services, services, services - 1),
            (services, services - 1, services),
            (services - 1, services, services),
        ] {
            let rows = (row(volumes, 1), row(sizes, 1), row(weights, WHOLE));
            add_rows(records, &rows.0, &rows.1, &rows.2);
        }
    }
    let wide = row(64, 32);
    for weights in [2_047, 2_048, 2_049, 2_300] {
        add_rows(records, &row(64, 0), &wide, &row(weights, WHOLE / 32));
    }
}

/// Good rows with one or two numbers changed, dropped or put in.
fn spoilt(records: &mut Records, random: &mut Random) {
    for _ in 0..60 {
        let shape = OrderShape {
            services: random.within(1, 5),
            backends: 5,
            bits: 12,
        };
        let order = order(random, &shape);
        let mut rows = rows_of(&order.services);
        for _ in 0..random.within(1, 2) {
            match random.below(5) {
                0 => spoil_row(random, &mut rows.volumes),
                1 => spoil_row(random, &mut rows.sizes),
                2 => spoil_row(random, &mut rows.ids),
                3 => spoil_ids(random, &mut rows.ids),
                _ => spoil_row(random, &mut rows.weights),
            }
        }
        add(records, [order.k, order.tolerance, order.capacity], &rows);
    }
}

fn spoil_row(random: &mut Random, row: &mut Vec<u64>) {
    let number = *random.pick(&[
        0,
        1,
        2,
        32,
        33,
        10_000,
        10_001,
        FORMER_WHOLE,
        WHOLE,
        WHOLE + 1,
        u64::MAX,
    ]);
    let at = random.below(row.len() as u64 + 1) as usize;
    match random.below(5) {
        0 | 1 if at < row.len() => row[at] = number,
        2 if at < row.len() => drop(row.remove(at)),
        3 => row.truncate(at),
        _ => row.insert(at, number),
    }
}
