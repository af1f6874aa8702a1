//! Weights, orders and tables of every shape, made at random.

use crate::expansion::Rule;
use crate::limits::{MOST_BITS, MOST_ID, MOST_SERVICES, MOST_TOTAL, MOST_VOLUME};
use crate::numerals::{DECIMALS, PERCENT, WHOLE};
use crate::packing::{Order, Service};
use crate::random::Random;
use crate::suffix::Suffix;
use crate::table::{RuleLine, Table};

/// All of a weight, and the greatest total, in document 01, before request 07.
pub const FORMER_WHOLE: u64 = 1_000_000;
pub const FORMER_TOTAL: u64 = 2_621_440_000_000_000;

/// How many units the last of four decimals is worth.
pub const FOURTH: u64 = WHOLE / FORMER_WHOLE;

/// The weights of P1, P3 and P6.
pub const SIXTHS: [u64; 3] = [16_666_700, 33_333_300, WHOLE / 2];
pub const QUARTERS: [u64; 3] = [WHOLE / 4, WHOLE / 4, WHOLE / 2];
pub const THIRDS: [u64; 3] = [33_333_400, 33_333_300, 33_333_300];

/// Sixths and thirds as near as six decimals come, and thirds of which the first is
/// two units below the others.
pub const FINE_SIXTHS: [u64; 3] = [16_666_667, 33_333_333, WHOLE / 2];
pub const FINE_THIRDS: [u64; 3] = [33_333_334, 33_333_333, 33_333_333];
pub const LOW_FIRST: [u64; 3] = [33_333_332, 33_333_334, 33_333_334];

/// The step from one weight to the next where there are six, five or four decimals.
fn grain(random: &mut Random) -> u64 {
    *random.pick(&[1, 1, FOURTH / 10, FOURTH, FOURTH])
}

/// A service from its volume, ids and weights.
pub fn named(volume: u64, ids: &[u64], weights: &[u64]) -> Service {
    Service {
        volume,
        ids: ids.to_vec(),
        weights: weights.to_vec(),
    }
}

/// A service from its volume and weights, with the ids 1, 2, ..
pub fn service(volume: u64, weights: &[u64]) -> Service {
    named(volume, &first_ids(weights.len()), weights)
}

/// The ids 1, 2, .. of a number of backends.
pub fn first_ids(count: usize) -> Vec<u64> {
    (1..=count as u64).collect()
}

/// Ascending ids of a number of backends: 1, 2, .., with gaps, long ones, and
/// with both limits.
pub fn ids(random: &mut Random, count: usize) -> Vec<u64> {
    let widest = MOST_ID - count as u64;
    let spare = *random.pick(&[0, 0, 2, 30, 900, widest, widest, widest]);
    let mut gaps: Vec<u64> = (0..count).map(|_| random.below(spare + 1)).collect();
    gaps.sort_unstable();
    if spare == widest && random.once_in(2) {
        gaps[0] = 0;
        gaps[count - 1] = widest;
    }
    gaps.iter()
        .zip(1..)
        .map(|(gap, place)| gap + place)
        .collect()
}

/// Weights of a number of backends, which sum to the whole, of six, five or four
/// decimals.
pub fn weights(random: &mut Random, count: usize) -> Vec<u64> {
    let grain = grain(random);
    weights_of(random, count, grain)
}

/// The same with one step from weight to weight.
pub fn weights_of(random: &mut Random, count: usize, grain: u64) -> Vec<u64> {
    let mut weights = match random.below(9) {
        0 => equal(count, grain),
        1 => near_ties(random, count, grain),
        2 => halves(count, grain),
        3 => dominated(random, count, grain),
        4 => eighths(random, count, grain),
        5 => cut_at_random(random, count.div_ceil(2), grain),
        _ => cut_at_random(random, count, grain),
    };
    weights.resize(count, 0);
    if random.once_in(2) {
        shuffle(random, &mut weights);
    }
    weights
}

/// Like weights; what doesn't divide goes to the first ones.
fn equal(count: usize, grain: u64) -> Vec<u64> {
    let steps = WHOLE / grain;
    let (each, rest) = (steps / count as u64, steps % count as u64);
    (0..count as u64)
        .map(|i| grain * (each + u64::from(i < rest)))
        .collect()
}

/// Like weights with a few steps moved.
fn near_ties(random: &mut Random, count: usize, grain: u64) -> Vec<u64> {
    let mut weights = equal(count, grain);
    for _ in 0..random.below(6) {
        let (from, to) = (random.below(count as u64), random.below(count as u64));
        let moved = grain * random.within(1, 3);
        weights[from as usize] -= moved.min(weights[from as usize]);
        weights[to as usize] += WHOLE - weights.iter().sum::<u64>();
    }
    weights
}

/// 50, 25, 12.5 and so on, down to what a step allows.
fn halves(count: usize, grain: u64) -> Vec<u64> {
    let mut weights = Vec::new();
    let mut rest = WHOLE;
    while weights.len() + 1 < count && rest.is_multiple_of(2 * grain) {
        rest /= 2;
        weights.push(rest);
    }
    weights.push(rest);
    weights
}

/// One weight of almost everything, and small ones.
fn dominated(random: &mut Random, count: usize, grain: u64) -> Vec<u64> {
    let small = *random.pick(&[2, 50, 2_000, 20_000]);
    let mut weights: Vec<u64> = (1..count).map(|_| grain * random.below(small)).collect();
    weights.push(WHOLE - weights.iter().sum::<u64>());
    weights
}

/// Multiples of an eighth, or of another part of the whole, down to what a step
/// allows.
fn eighths(random: &mut Random, count: usize, grain: u64) -> Vec<u64> {
    let parts = [4, 8, 16, 64, 100, 10, 128, 256];
    let whole: Vec<u64> = parts
        .into_iter()
        .filter(|parts| WHOLE.is_multiple_of(parts * grain))
        .collect();
    let parts = *random.pick(&whole);
    let mut weights = vec![0; count];
    for _ in 0..parts {
        weights[random.below(count as u64) as usize] += WHOLE / parts;
    }
    weights
}

/// The whole cut at random places.
fn cut_at_random(random: &mut Random, count: usize, grain: u64) -> Vec<u64> {
    let grain = *random.pick(&[grain, grain, grain, PERCENT / 100, PERCENT]);
    let mut cuts: Vec<u64> = (1..count)
        .map(|_| grain * random.below(WHOLE / grain + 1))
        .collect();
    cuts.extend([0, WHOLE]);
    cuts.sort_unstable();
    cuts.windows(2).map(|pair| pair[1] - pair[0]).collect()
}

fn shuffle(random: &mut Random, weights: &mut [u64]) {
    for i in 1..weights.len() {
        weights.swap(i, random.below(i as u64 + 1) as usize);
    }
}

/// A tolerance, most often small.
pub fn tolerance(random: &mut Random) -> u64 {
    match random.below(10) {
        0..=4 => 0,
        5 | 6 => some_places(random, PERCENT / 10),
        7 | 8 => some_places(random, 2 * PERCENT),
        _ => some_places(random, WHOLE + 1),
    }
}

/// A number below a bound, of six, five or four decimals.
pub fn some_places(random: &mut Random, bound: u64) -> u64 {
    let number = random.below(bound);
    number - number % grain(random)
}

/// How large an order may become.
pub struct OrderShape {
    pub services: u64,
    pub backends: u64,
    pub bits: u64,
}

/// An order that keeps the rules of document 01.
pub fn order(random: &mut Random, shape: &OrderShape) -> Order {
    let volumes = *random.pick(&[1, 2, 10, 100, 10_001, 10_001]);
    let same = random.once_in(6);
    let mut services: Vec<Service> = Vec::new();
    for _ in 0..shape.services {
        let fewest = if random.once_in(8) { 1 } else { 2 };
        let count = random.within(fewest.min(shape.backends), shape.backends) as usize;
        let volume = random.below(volumes) + u64::from(volumes == 1) * 7;
        match services.first() {
            Some(first) if same => services.push(first.clone()),
            _ => {
                let (ids, weights) = (ids(random, count), weights(random, count));
                services.push(named(volume, &ids, &weights));
            }
        }
    }
    let room = *random.pick(&[1, 4, 16, 64, 2_048]);
    Order {
        k: random.within(1, shape.bits),
        tolerance: tolerance(random),
        capacity: (shape.services + random.below(room)).min(2_048),
        services,
    }
}

/// The order of the largest total: each service has one rule, and as small a
/// largest weight as 32 can have.
pub fn largest_total() -> Order {
    Order {
        k: MOST_BITS,
        tolerance: 0,
        capacity: MOST_SERVICES,
        services: vec![service(MOST_VOLUME, &[WHOLE / 32; 32]); MOST_SERVICES as usize],
    }
}

/// A percentage as text, with some zeros more than it needs.
pub fn percentage_text(random: &mut Random, value: u64) -> String {
    let decimals = format!("{:0DECIMALS$}", value % PERCENT);
    let needed = decimals.trim_end_matches('0').len() as u64;
    let shown = match random.below(4) {
        0 => random.within(needed, DECIMALS as u64),
        _ => needed,
    };
    match shown {
        0 => (value / PERCENT).to_string(),
        _ => format!("{}.{}", value / PERCENT, &decimals[..shown as usize]),
    }
}

/// The percentage sheet of an order.
pub fn sheet_text(random: &mut Random, order: &Order) -> Vec<u8> {
    let tolerance = percentage_text(random, order.tolerance);
    let mut text = format!("SHEET {} {tolerance} {}\n", order.k, order.capacity);
    for service in &order.services {
        text += &format!("SERVICE {}", service.volume);
        for (id, &weight) in service.ids.iter().zip(&service.weights) {
            text += &format!(" {id}:{}", percentage_text(random, weight));
        }
        text += "\n";
    }
    text.into_bytes()
}

/// A table that keeps the order of the rule sheet, of at most so many services.
pub fn rule_table(random: &mut Random, k: u64, services: u64) -> Table {
    let mut lines = Vec::new();
    let mut service = 0;
    for _ in 0..random.within(1, services) {
        service += match random.below(4) {
            0 => random.within(1, 3),
            _ => 1,
        };
        if service > 64 {
            break;
        }
        let most = *random.pick(&[2, 5, 5, 9, 32]);
        add_rules(random, k, service as u8, most, &mut lines);
    }
    let total = random.any_size() % (MOST_TOTAL + 1);
    Table {
        k: k as u8,
        total,
        lines,
    }
}

/// Adds the lines of one service: lengths that don't grow, then `*`.
fn add_rules(random: &mut Random, k: u64, service: u8, most: u64, lines: &mut Vec<RuleLine>) {
    let count = random.within(1, most);
    let mut lengths: Vec<u64> = (1..count).map(|_| random.within(1, k)).collect();
    lengths.sort_unstable_by(|a, b| b.cmp(a));
    lengths.push(0);
    let backends = *random.pick(&[2, 3, 32]);
    let ids = ids(random, backends);
    for length in lengths {
        let place = random.below(1 << length) as u16;
        let suffix = Suffix::at_place(length as u8, place);
        let backend = *random.pick(&ids) as u16;
        let rule = Rule { suffix, backend };
        lines.push(RuleLine { service, rule });
    }
}

/// One thing wrong with ids: one out of its limits, one out of line, equal, left
/// out or too many.
pub fn spoil_ids(random: &mut Random, ids: &mut Vec<u64>) {
    let at = random.below(ids.len() as u64 + 1) as usize;
    match random.below(6) {
        0 if at < ids.len() => ids[at] = *random.pick(&[0, 1, MOST_ID, MOST_ID + 1, u64::MAX]),
        1 if at < ids.len() => ids[at] = random.within(1, MOST_ID),
        2 if at < ids.len() => drop(ids.remove(at)),
        3 if at < ids.len() => ids.insert(at, ids[at]),
        4 if at > 1 => ids.swap(at - 1, at - 2),
        _ => ids.push(random.within(1, MOST_ID)),
    }
}

/// The table with the same places under other ids, or partly the same.
pub fn renamed(random: &mut Random, table: &Table) -> Table {
    let mut before: Vec<u16> = table.lines.iter().map(|line| line.rule.backend).collect();
    before.sort_unstable();
    before.dedup();
    let after = ids(random, before.len());
    let mut table = table.clone();
    for line in &mut table.lines {
        let place = before.partition_point(|&id| id < line.rule.backend);
        line.rule.backend = after[place] as u16;
    }
    table
}
