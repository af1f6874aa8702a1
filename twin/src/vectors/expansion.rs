//! Vectors for the expansion of one service.

use super::records::{Record, Records};
use super::shapes::{
    first_ids, ids, spoil_ids, tolerance, weights, FINE_SIXTHS, FINE_THIRDS, FORMER_WHOLE, FOURTH,
    LOW_FIRST, QUARTERS, SIXTHS, THIRDS,
};
use crate::count;
use crate::expansion::{expand, Ending, Expansion};
use crate::numerals::{PERCENT, WHOLE};
use crate::random::Random;
use crate::refusal::Refusal;
use crate::suffix::Suffix;

/// What the twin says to one record; nothing if the record is of no kind.
pub fn answer(record: &Record) -> Option<String> {
    let ("E", &[k, tolerance, budget]) = (record.kind, record.numbers.as_slice()) else {
        return None;
    };
    let [ids, weights] = rows(std::str::from_utf8(record.payload).ok()?)?;
    let list = expand(k, tolerance, budget, &ids, &weights);
    Some(list.map_or_else(refused_text, |list| list_text(&list)))
}

/// A refusal of a call without a text.
pub(super) fn refused_text(refusal: Refusal) -> String {
    format!("refused {}", refusal.number())
}

/// Numbers between single spaces; an empty text has none.
pub fn numbers(text: &str) -> Option<Vec<u64>> {
    let fields = text.split(' ').filter(|_| !text.is_empty());
    fields.map(|field| field.parse().ok()).collect()
}

/// So many lines of numbers, each ended by LF.
pub(super) fn rows<const N: usize>(text: &str) -> Option<[Vec<u64>; N]> {
    let rows: Option<Vec<Vec<u64>>> = text.strip_suffix('\n')?.split('\n').map(numbers).collect();
    rows?.try_into().ok()
}

/// Lines of numbers, each ended by LF.
pub(super) fn rows_text(rows: &[&[u64]]) -> String {
    let line = |row: &&[u64]| {
        let row: Vec<String> = row.iter().map(u64::to_string).collect();
        row.join(" ") + "\n"
    };
    rows.iter().map(line).collect()
}

/// A suffix as text.
pub fn suffix_text(suffix: Suffix) -> String {
    let mut text = Vec::new();
    suffix.push(&mut text);
    String::from_utf8_lossy(&text).into_owned()
}

/// How the list ended, its number of rules, then `suffix>backend:stair`.
fn list_text(list: &Expansion) -> String {
    let ending = match list.ending {
        Ending::Within => "within",
        Ending::NoGain => "nogain",
        Ending::Budget => "budget",
    };
    let mut text = format!("{ending} {}", list.rules.len());
    for (rule, stair) in list.rules.iter().zip(&list.stairs) {
        let suffix = suffix_text(rule.suffix);
        text += &format!(" {suffix}>{}:{stair}", rule.backend);
    }
    text
}

/// Adds all of them.
pub fn add_all(records: &mut Records) {
    let mut random = Random::new(2);
    listed(records);
    one_apart(records);
    at_random(records, &mut random);
    at_limits(records, &mut random);
    named(records);
    refused(records);
    refused_ids(records);
    refused_at_random(records, &mut random);
}

fn add_list(records: &mut Records, numbers: [u64; 3], weights: &[u64]) {
    add_named(records, numbers, &first_ids(weights.len()), weights);
}

fn add_named(records: &mut Records, numbers: [u64; 3], ids: &[u64], weights: &[u64]) {
    let [k, tolerance, budget] = numbers;
    let header = format!("E {k} {tolerance} {budget}");
    records.add(&header, rows_text(&[ids, weights]).as_bytes());
}

/// P1 to P6; P1 and P3, and P1 with six decimals, with every budget and depth and
/// some tolerances.
fn listed(records: &mut Records) {
    add_list(records, [5, 2 * PERCENT, 32], &SIXTHS);
    add_list(records, [5, 0, 32], &SIXTHS);
    add_list(records, [5, 0, 32], &QUARTERS);
    add_list(records, [1, 0, 32], &[WHOLE]);
    add_list(records, [1, 0, 32], &[WHOLE / 2, WHOLE / 2]);
    add_list(records, [1, 0, 32], &THIRDS);
    for weights in [SIXTHS, QUARTERS, FINE_SIXTHS] {
        for k in 1..=12 {
            add_list(records, [k, 0, 32], &weights);
        }
        for budget in 1..=6 {
            add_list(records, [5, 0, budget], &weights);
        }
        for tolerance in TOLERANCES {
            add_list(records, [5, tolerance, 32], &weights);
        }
    }
}

/// At, above and below the greatest errors of a list for sixths, which are 1.0417
/// and 4.1667, or 1.041667 and 4.166667 with six decimals; and of a `*` alone.
const TOLERANCES: [u64; 14] = [
    1,
    FOURTH,
    1_041_666,
    1_041_667,
    1_041_668,
    1_041_699,
    1_041_700,
    4_166_666,
    4_166_667,
    4_166_699,
    4_166_700,
    WHOLE / 2 - 1,
    WHOLE / 2,
    WHOLE,
];

/// Weights that lie a unit or two apart, so that four decimals would make ties of
/// them, and the last of four decimals apart.
fn one_apart(records: &mut Records) {
    let (below, above) = (WHOLE / 4 - 1, WHOLE / 4 + 1);
    for weights in [
        [WHOLE / 4; 4],
        [below, above, WHOLE / 4, WHOLE / 4],
        [WHOLE / 4, below, WHOLE / 4, above],
        [above, WHOLE / 4, WHOLE / 4, below],
        [below, below, above, above],
        [below - FOURTH, above, WHOLE / 4, WHOLE / 4 + FOURTH],
        [0, 1, WHOLE - 1, 0],
        [0, FOURTH, WHOLE - FOURTH, 0],
        [WHOLE / 2 - 1, 1, WHOLE / 2, 0],
    ] {
        for k in [1, 2, 3, 12] {
            add_list(records, [k, 0, 32], &weights);
        }
    }
    for mut weights in [THIRDS, FINE_THIRDS, LOW_FIRST] {
        for _ in 0..weights.len() {
            weights.rotate_left(1);
            for k in [1, 2, 12] {
                add_list(records, [k, 0, 32], &weights);
            }
        }
    }
}

/// The P cases and like weights under ids with gaps, long ones and both limits.
fn named(records: &mut Records) {
    for ids in [
        [1, 2, 9_999],
        [9_997, 9_998, 9_999],
        [255, 256, 257],
        [10, 200, 3_000],
    ] {
        for weights in [SIXTHS, QUARTERS, FINE_SIXTHS] {
            add_named(records, [5, 0, 32], &ids, &weights);
        }
        add_named(records, [1, 0, 32], &ids, &THIRDS);
        add_named(records, [12, 0, 32], &ids, &[0, WHOLE, 0]);
    }
    for (from, apart) in [(1, 1), (9_968, 1), (312, 312), (30, 321)] {
        let ids: Vec<u64> = (0..32).map(|place| from + apart * place).collect();
        for k in [1, 5, 12] {
            add_named(records, [k, 0, 32], &ids, &[WHOLE / 32; 32]);
        }
    }
    add_named(records, [7, 0, 32], &[1], &[WHOLE]);
    add_named(records, [7, 0, 32], &[9_999], &[WHOLE]);
}

/// Ids for two backends, of which only the last are right.
const IDS: [&[u64]; 14] = [
    &[],
    &[1],
    &[1, 2, 3],
    &[0, 1],
    &[1, 0],
    &[1, 10_000],
    &[10_000, 1],
    &[1, 65_537],
    &[1, u64::MAX],
    &[5, 5],
    &[5, 4],
    &[9_999, 1],
    &[9_999, 9_999],
    &[1, 9_999],
];

/// Ids that are too few or too many, out of their limits, equal or out of line,
/// with weights that are good, too large, unbalanced and too many.
fn refused_ids(records: &mut Records) {
    let unlike: [&[u64]; 6] = [
        &[WHOLE / 2; 2],
        &[WHOLE + 1, 0],
        &[1; 2],
        &[],
        &[0; 33],
        &[WHOLE],
    ];
    for ids in IDS {
        for weights in unlike {
            add_named(records, [5, 0, 32], ids, weights);
        }
        add_named(records, [13, 0, 32], ids, &[WHOLE / 2; 2]);
        add_named(records, [5, 0, 33], ids, &[WHOLE / 2; 2]);
    }
    for (ids, weights) in [
        (31, 32),
        (33, 32),
        (32, 33),
        (33, 33),
        (34, 33),
        (40, 1),
        (0, 32),
    ] {
        add_named(
            records,
            [5, 0, 32],
            &first_ids(ids),
            &vec![WHOLE / 32; weights],
        );
    }
    for at in [0, 1, 15, 30, 31] {
        for id in [0, 16, 33, 9_999, 10_000] {
            let mut ids = first_ids(32);
            ids[at] = id;
            add_named(records, [5, 0, 32], &ids, &[WHOLE / 32; 32]);
        }
    }
}

/// Weights of every shape, with every k, tolerance and budget.
fn at_random(records: &mut Records, random: &mut Random) {
    for turn in 0..650 {
        let most = *random.pick(&[4, 8, 32]);
        let count = random.within(1, most) as usize;
        let (ids, weights) = (ids(random, count), weights(random, count));
        let budget = match random.below(2) {
            0 => 32,
            _ => random.within(1, 32),
        };
        let numbers = [1 + turn % 12, tolerance(random), budget];
        add_named(records, numbers, &ids, &weights);
    }
}

/// Tolerances just at, above and below the greatest error of a cut list.
fn at_limits(records: &mut Records, random: &mut Random) {
    for turn in 0..60 {
        let k = 1 + turn % 12;
        let count = random.within(2, 6) as usize;
        let (ids, weights) = (ids(random, count), weights(random, count));
        let Ok(list) = expand(k, 0, random.within(1, 8), &ids, &weights) else {
            continue;
        };
        let shares = count::shares(k as u8, &ids, list.rules.iter().rev());
        let errors = count::errors(k as u8, &weights, &shares);
        let greatest = errors.iter().map(|error| error.unsigned_abs()).max();
        let edge = greatest.unwrap_or(0) >> k;
        for tolerance in [edge.saturating_sub(1), edge, edge + 1] {
            add_named(records, [k, tolerance, 32], &ids, &weights);
        }
    }
}

/// Each refusal alone, and each before the ones that come after it.
fn refused(records: &mut Records) {
    let half = [WHOLE / 2, WHOLE / 2];
    for k in [0, 13, 64, u64::MAX] {
        add_list(records, [k, 0, 32], &half);
    }
    for tolerance in [WHOLE + 1, 2 * WHOLE, u64::MAX] {
        add_list(records, [5, tolerance, 32], &half);
    }
    for budget in [0, 33, 64, u64::MAX] {
        add_list(records, [5, 0, budget], &half);
    }
    let high = [WHOLE + 1; 40];
    for count in [0, 1, 2, 31, 32, 33, 34, 40] {
        for weight in [
            0,
            1,
            WHOLE / 33,
            FORMER_WHOLE / 32,
            WHOLE / 32,
            WHOLE / 2,
            FORMER_WHOLE,
            WHOLE,
            WHOLE + 1,
            u64::MAX,
        ] {
            add_list(records, [5, 0, 32], &vec![weight; count]);
        }
        add_list(records, [0, 0, 32], &high[..count]);
        add_list(records, [5, WHOLE + 1, 32], &high[..count]);
        add_list(records, [5, 0, 0], &high[..count]);
        add_list(records, [5, 0, 33], &high[..count]);
    }
    for last in [
        WHOLE / 2 - FOURTH,
        WHOLE / 2 - 1,
        WHOLE / 2 + 1,
        WHOLE / 2 + FOURTH,
        FORMER_WHOLE / 2,
        WHOLE,
        WHOLE + 1,
        u64::MAX,
        u64::MAX - (WHOLE / 2 - 1),
        1 << 32,
    ] {
        add_list(records, [12, 0, 32], &[WHOLE / 2, last]);
        add_list(records, [12, 0, 32], &[last, WHOLE / 2]);
    }
}

/// Good ones with one or two numbers spoilt.
fn refused_at_random(records: &mut Records, random: &mut Random) {
    for _ in 0..120 {
        let count = random.within(1, 34) as usize;
        let (mut ids, mut weights) = (ids(random, count), weights(random, count));
        let mut numbers = [
            random.within(1, 12),
            tolerance(random),
            random.within(1, 32),
        ];
        for _ in 0..random.within(1, 2) {
            let at = random.below(weights.len() as u64) as usize;
            match random.below(6) {
                0 => numbers[random.below(3) as usize] = random.any_size(),
                1 => weights[at] = random.any_size(),
                2 => weights[at] += *random.pick(&[1, 2, FOURTH]),
                3 => weights[at] = weights[at].saturating_sub(*random.pick(&[1, FOURTH])),
                4 => spoil_ids(random, &mut ids),
                _ => weights.truncate(at.max(1)),
            }
        }
        add_named(records, numbers, &ids, &weights);
    }
}
