//! What vectors `L` ask about ids: backends that are missing from the new
//! weights or new in them, all 64, ties between them, and ids that are refused.

use super::asks::{tight, Ask, P1};
use super::loaded::{come_in, retire};
use super::shapes::{first_ids, ids, named, weights};
use crate::expansion::make_list;
use crate::limits::MOST_ID;
use crate::lists::numbers_of;
use crate::numerals::{PERCENT, WHOLE};
use crate::random::Random;

fn ask(k: u64, tolerance: u64, old: &[u64], ids: &[u64], weights: &[u64]) -> Ask {
    Ask {
        k,
        tolerance,
        old: old.to_vec(),
        ids: ids.to_vec(),
        weights: weights.to_vec(),
    }
}

/// So many like weights; what doesn't divide goes to the first.
fn like(count: usize) -> Vec<u64> {
    let each = WHOLE / count as u64;
    let mut weights = vec![each; count];
    weights[0] += WHOLE - each * count as u64;
    weights
}

/// P1's list with some of its backends and others.
pub fn p1_named() -> Vec<Ask> {
    let mut asks = Vec::new();
    let rows: [&[u64]; 11] = [
        &[2, 3],
        &[1, 3],
        &[1, 2],
        &[1],
        &[3],
        &[9_999],
        &[3, 4],
        &[1, 2, 3, 4],
        &[4, 5, 6],
        &[1, 3, 9_999],
        &[2, 9_998, 9_999],
    ];
    for ids in rows {
        for tolerance in [0, 2 * PERCENT, 20 * PERCENT] {
            asks.push(ask(5, tolerance, &P1, ids, &like(ids.len())));
        }
    }
    asks
}

/// Lists of expansions with weights of which some backends were retired, came in
/// or both.
pub fn of_other_backends(random: &mut Random, count: u64) -> Vec<Ask> {
    let mut asks = Vec::new();
    for turn in 0..count {
        let k = (1 + turn % 12) as u8;
        let most = *random.pick(&[4, 8, 32]);
        let backends = random.within(2, most) as usize;
        let mut new = named(1, &ids(random, backends), &weights(random, backends));
        let list = make_list(k, 0, 32, &new.ids, &new.weights);
        for change in 0..random.within(1, 3) {
            match (turn + change) % 3 {
                0 => come_in(random, &mut new),
                _ => retire(random, &mut new),
            }
        }
        let old = numbers_of(list.rules.iter().rev());
        let tolerance = *random.pick(&[0, PERCENT / 10, 2 * PERCENT, 6 * PERCENT, 30 * PERCENT]);
        asks.push(ask(k.into(), tolerance, &old, &new.ids, &new.weights));
    }
    asks
}

/// How the ids of the old list, the first row, and the new ones lie: in turn,
/// below and above each other, at both limits, and one of them in both.
fn two_rows() -> Vec<[Vec<u64>; 2]> {
    let row = |from: u64, apart: u64| (0..32).map(|place| from + apart * place).collect();
    vec![
        [row(1, 2), row(2, 2)],
        [row(2, 2), row(1, 2)],
        [row(1, 1), row(33, 1)],
        [row(33, 1), row(1, 1)],
        [row(1, 300), row(MOST_ID - 310, 10)],
        [row(MOST_ID - 31, 1), row(1, 31)],
        [row(1, 1), row(32, 1)],
        [row(10, 7), row(10, 7)],
    ]
}

/// 32 rules to 32 backends and weights of 32 others, so that 64 are known, or a
/// few less: the tightest tolerances of some, and one that all are within.
pub fn all_known(random: &mut Random) -> Vec<Ask> {
    let mut asks = Vec::new();
    for (turn, [before, after]) in two_rows().iter().enumerate() {
        let rule = |place: usize| [12, 4_095 - 100 * place as u64, before[place]];
        let mut old: Vec<u64> = (1..32).flat_map(rule).collect();
        old.extend([0, 0, before[0]]);
        asks.push(ask(12, WHOLE, &old, after, &like(32)));
        asks.push(ask(12, 4 * PERCENT, &old, after, &like(32)));
        let few = weights(random, 3 + turn);
        let few = ask(12, 0, &old, after, &[few, vec![0; 29 - turn]].concat());
        asks.extend(tight(&few).into_iter().rev().take(6));
        let half = |bit: usize| [12 - bit as u64, 0, before[bit]];
        let halves: Vec<u64> = (0..12).flat_map(half).collect();
        let halves = [halves, vec![0, 0, before[31]]].concat();
        asks.extend(
            tight(&ask(12, 0, &halves, after, &like(32)))
                .into_iter()
                .take(4),
        );
    }
    asks
}

/// Backends of like errors: each giver and each receiver is the lowest id of
/// all, whether the old list has it, the new weights or both.
pub fn tied() -> Vec<Ask> {
    let mut asks = Vec::new();
    let rows: [&[u64]; 12] = [
        &[1, 2],
        &[4, 5],
        &[7, 8],
        &[1, 9],
        &[3, 5],
        &[3, 9],
        &[2, 6],
        &[6, 7],
        &[1, 4, 7, 9],
        &[3, 4, 6, 7],
        &[1, 2, 3, 6],
        &[2, 3, 5, 6, 8],
    ];
    for ids in rows {
        for (star, half) in [(3, 6), (6, 3), (3, 3)] {
            let old = [[2, 3, star].repeat(8), vec![1, 0, half, 0, 0, star]].concat();
            asks.push(ask(4, 0, &old, ids, &like(ids.len())));
            let mut last = vec![0; ids.len()];
            last[ids.len() - 1] = WHOLE;
            asks.push(ask(4, 0, &old[12..], ids, &last));
        }
    }
    asks
}

/// Four backends that hold a quarter each, some of them missing and the others of
/// weight 0: each gives its quarter to one that comes in, the lowest id first.
pub fn tied_givers() -> Vec<Ask> {
    let mut asks = Vec::new();
    let orders = [
        [2, 4, 6, 8],
        [8, 6, 4, 2],
        [4, 8, 2, 6],
        [6, 2, 8, 4],
        [2, 999, 2_000, 9_998],
    ];
    for [a, b, c, d] in orders {
        let quarters = [2, 1, d, 2, 0, c, 1, 0, b, 0, 0, a];
        let old = [[2, 3, a].repeat(4), quarters.to_vec()].concat();
        for (turn, present) in [&[][..], &[a], &[b], &[c, d], &[a, b, d]]
            .iter()
            .enumerate()
        {
            for new in [1, 5, 9_999] {
                let mut ids = [present, &[new][..]].concat();
                ids.sort_unstable();
                let weight = |&id: &u64| if id == new { WHOLE } else { 0 };
                let weights: Vec<u64> = ids.iter().map(weight).collect();
                asks.push(ask(2 + turn as u64, 0, &old, &ids, &weights));
            }
        }
    }
    asks
}

/// Ids that are too few or too many, out of their limits, equal or out of line,
/// with lists and weights that are good or refused too.
pub fn refused_ids() -> Vec<Ask> {
    let mut asks = Vec::new();
    let rows: [&[u64]; 10] = [
        &[],
        &[1],
        &[1, 2, 3],
        &[0, 1],
        &[1, 10_000],
        &[5, 5],
        &[5, 4],
        &[9_999, 1],
        &[1, u64::MAX],
        &[1, 9_999],
    ];
    let unlike: [&[u64]; 5] = [&[WHOLE / 2; 2], &[0, WHOLE + 1], &[1; 2], &[], &[0; 33]];
    for ids in rows {
        for weights in unlike {
            asks.push(ask(5, WHOLE, &P1, ids, weights));
        }
        asks.push(ask(5, WHOLE, &P1[..9], ids, &[WHOLE / 2; 2]));
        asks.push(ask(5, WHOLE, &[0, 0, 10_000], ids, &[WHOLE / 2; 2]));
        asks.push(ask(5, WHOLE + 1, &P1, ids, &[WHOLE / 2; 2]));
    }
    for (ids, weights) in [(31, 32), (33, 32), (32, 33), (33, 33), (64, 32), (0, 32)] {
        asks.push(ask(
            5,
            WHOLE,
            &P1,
            &first_ids(ids),
            &vec![WHOLE / 32; weights],
        ));
    }
    asks
}
