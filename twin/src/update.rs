//! New weights on a loaded table (document 02, requests 03 to 05).

use crate::calls::PairRefusal;
use crate::expansion::{check_backends, Ending, Rule};
use crate::limits::MOST_BITS;
use crate::lists::{lend, list_of, numbers_of};
use crate::numerals::WHOLE;
use crate::refusal::{Reason, Refusal};
use crate::services::{rules_of, service_of};
use crate::start::{Limits, Start};
use crate::suffix::Suffix;
use crate::{percentage_sheet, rule_sheet};
use std::mem::swap;

/// How many rules were kept, how many there are, and the suffixes that moved.
#[derive(Clone, Copy, PartialEq, Eq, Debug)]
pub struct Updated {
    pub keep: usize,
    pub rules: usize,
    pub churn: u64,
}

/// Keeps those oldest rules that lead to a list within the tolerance with the
/// lowest churn, the most of them if equal. The buffer takes that list, newest
/// rule first; nothing is written if the call is refused.
pub fn update(
    k: u64,
    tolerance: u64,
    old: &[u64],
    ids: &[u64],
    weights: &[u64],
    room: &mut [u64],
) -> Result<Updated, Refusal> {
    let updated = checked(k, tolerance, old, ids, weights).and_then(|rules| {
        let known = Known::new(&rules, ids, weights);
        updated_into(k as u8, tolerance, &rules, &known, room)
    });
    updated.map_err(|reason| reason.at(0))
}

/// `update` for a service of a rule sheet, where a percentage sheet has its new
/// weights and the tolerance; its k is told too.
pub fn update_sheets(
    old: &[u8],
    sheet: &[u8],
    service: u64,
    room: &mut [u64],
) -> Result<(u8, Updated), PairRefusal> {
    let about = |which: u8| move |refusal: Refusal| PairRefusal { refusal, which };
    let neither = |reason: Reason| about(0)(reason.at(0));
    let table = rule_sheet::read(old).map_err(about(1))?;
    let order = percentage_sheet::read(sheet).map_err(about(2))?;
    let rules = rules_of(&table, service).map_err(about(1))?;
    let new = service_of(&order, service).map_err(about(2))?;
    if u64::from(table.k) != order.k {
        return Err(neither(Reason::Depth));
    }
    let known = Known::new(&rules, &new.ids, &new.weights);
    let updated = updated_into(table.k, order.tolerance, &rules, &known, room);
    Ok((table.k, updated.map_err(neither)?))
}

/// The rules of the old list, newest first, if all is within its limits.
pub fn checked(
    k: u64,
    tolerance: u64,
    old: &[u64],
    ids: &[u64],
    weights: &[u64],
) -> Result<Vec<Rule>, Reason> {
    if !(1..=MOST_BITS).contains(&k) || tolerance > WHOLE {
        return Err(Reason::BadField);
    }
    let rules = list_of(k, old)?;
    check_backends(ids, weights)?;
    Ok(rules)
}

/// The backends that an update knows, those of the old list and those of the new
/// weights, at most 64: their ids ascend, and one that has no new weight has
/// weight 0.
pub struct Known {
    ids: Vec<u64>,
    weights: Vec<u64>,
}

impl Known {
    /// All of them, where the ids of the new weights ascend.
    pub fn new(old: &[Rule], ids: &[u64], weights: &[u64]) -> Known {
        let mut all = Vec::with_capacity(old.len() + ids.len());
        all.extend(old.iter().map(|rule| u64::from(rule.backend)));
        all.extend(ids);
        all.sort_unstable();
        all.dedup();
        let mut new = ids.iter().zip(weights).peekable();
        let weight = |id: &u64| new.next_if(|&(own, _)| own == id).map_or(0, |(_, &w)| w);
        let weights = all.iter().map(weight).collect();
        Known { ids: all, weights }
    }

    /// The place of a rule's backend among them.
    fn place(&self, rule: &Rule) -> usize {
        let id = u64::from(rule.backend);
        self.ids.partition_point(|&other| other < id)
    }
}

/// Finds the new list and lends it; where it doesn't fit, no other r is answered.
fn updated_into(
    k: u8,
    tolerance: u64,
    old: &[Rule],
    known: &Known,
    room: &mut [u64],
) -> Result<Updated, Reason> {
    let (updated, list) = least_churn(k, tolerance, old, known).ok_or(Reason::Stuck)?;
    lend(&numbers_of(list.iter().rev()), room)?;
    Ok(updated)
}

/// How many terms may be tried, where the newest kept rule is the longest: none
/// above its suffix, and none above half the tree.
fn terms(k: u8, newest: Rule) -> u8 {
    k + 1 - newest.suffix.length().max(1)
}

/// The oldest `keep` rules laid out; also who had the suffix of each but the
/// oldest before. From the oldest on no suffix covers more than the one before,
/// so one backend has all of it.
fn laid<'a>(
    k: u8,
    known: &'a Known,
    old: &[Rule],
    keep: usize,
) -> (Start<'a>, Vec<(Suffix, usize)>) {
    let mut oldest = old.iter().rev().take(keep);
    let star = oldest.next().expect("a list has its `*`");
    let mut start = Start::new(k, &known.ids, &known.weights, known.place(star));
    let lay = |rule: &Rule| (rule.suffix, start.lay(rule.suffix, known.place(rule)));
    let before = oldest.map(lay).collect();
    (start, before)
}

/// One run from the oldest `keep` rules, which are laid out: how it ended. It
/// leaves its list, oldest rule first.
fn run_from(
    k: u8,
    tolerance: u64,
    old: &[Rule],
    keep: usize,
    start: &mut Start,
    list: &mut Vec<Rule>,
) -> Ending {
    list.clear();
    list.extend(old.iter().rev().take(keep));
    let limits = Limits {
        tolerance,
        budget: old.len(),
        terms: terms(k, list[keep - 1]),
    };
    start.go_on(&limits, list, |_| ())
}

/// One run alone: how it ended, and its list, oldest rule first. The old list is
/// newest first.
pub fn run(k: u8, tolerance: u64, old: &[Rule], keep: usize, known: &Known) -> (Ending, Vec<Rule>) {
    let (mut start, _) = laid(k, known, old, keep);
    let mut list = Vec::with_capacity(old.len());
    let ending = run_from(k, tolerance, old, keep, &mut start, &mut list);
    (ending, list)
}

/// Tries every r and tells of each run that ends within the tolerance, the largest
/// r first; its list is oldest rule first and may be taken. Rules are taken back
/// one by one from the whole old list.
pub fn each_within(
    k: u8,
    tolerance: u64,
    old: &[Rule],
    known: &Known,
    mut tell: impl FnMut(Updated, &mut Vec<Rule>),
) {
    let (mut start, mut before) = laid(k, known, old, old.len());
    let whole = start.holdings().clone();
    let mut list = Vec::with_capacity(old.len());
    for keep in (1..=old.len()).rev() {
        if start.reaches(tolerance, old.len() - keep) {
            let mut run = start.clone();
            if run_from(k, tolerance, old, keep, &mut run, &mut list) == Ending::Within {
                let updated = Updated {
                    keep,
                    rules: list.len(),
                    churn: whole.unlike(run.holdings()),
                };
                tell(updated, &mut list);
            }
        }
        if let Some((suffix, holder)) = before.pop() {
            start.lay(suffix, holder);
        }
    }
}

/// Of all runs that end within the tolerance the one with the lowest churn, the
/// largest r if equal: it comes first, so a later one has to be better.
fn least_churn(k: u8, tolerance: u64, old: &[Rule], known: &Known) -> Option<(Updated, Vec<Rule>)> {
    let (mut best, mut best_list) = (None::<Updated>, Vec::with_capacity(old.len()));
    each_within(k, tolerance, old, known, |updated, list| {
        if best.is_none_or(|best| updated.churn < best.churn) {
            best = Some(updated);
            swap(list, &mut best_list);
        }
    });
    best.map(|best| (best, best_list))
}

#[cfg(test)]
mod tests {
    use super::*;
    use crate::numerals::PERCENT;
    use crate::plain::{self, Run};
    use crate::random::Random;
    use crate::vectors::loaded::{loaded, Loaded};
    use crate::vectors::several::any_case;
    use crate::vectors::shapes::first_ids;

    /// P1's list, k 5: `*`>3 `*0`>2 `*000`>1 `*00100`>1, newest first.
    const P1: [u64; 12] = [5, 4, 1, 3, 0, 1, 1, 0, 2, 0, 0, 3];
    const SIXTHS: [u64; 3] = [16_666_700, 33_333_300, WHOLE / 2];

    /// The answer of `update` for k 5 and the numbers that it wrote.
    fn updated(
        tolerance: u64,
        old: &[u64],
        ids: &[u64],
        weights: &[u64],
    ) -> (Result<[u64; 3], u8>, Vec<u64>) {
        let mut room = [77_777; 96];
        let answer = update(5, tolerance, old, ids, weights, &mut room);
        let answer = answer.map(|made| [made.keep as u64, made.rules as u64, made.churn]);
        let written = room.iter().copied().take_while(|&number| number != 77_777);
        (answer.map_err(Refusal::number), written.collect())
    }

    /// The answer on P1's list, with the ids 1, 2, ..
    fn p1(tolerance: u64, weights: &[u64]) -> (Result<[u64; 3], u8>, Vec<u64>) {
        updated(tolerance, &P1, &first_ids(weights.len()), weights)
    }

    #[test]
    fn case_p1_with_other_weights() {
        let quarters = vec![3, 4, 1, 3, 0, 1, 1, 0, 2, 0, 0, 3];
        let taken = vec![1, 0, 3, 1, 0, 2, 0, 0, 3];
        let mirrored = vec![5, 4, 2, 3, 0, 2, 1, 0, 1, 0, 0, 3];
        assert_eq!(p1(2 * PERCENT, &SIXTHS), (Ok([4, 4, 0]), P1.to_vec()));
        assert_eq!(p1(1_041_700, &SIXTHS), (Ok([4, 4, 0]), P1.to_vec()));
        assert_eq!(p1(1_041_699, &SIXTHS), (Err(13), vec![]));
        let sixths = [16_666_667, 33_333_333, WHOLE / 2];
        assert_eq!(p1(1_041_667, &sixths), (Ok([4, 4, 0]), P1.to_vec()));
        assert_eq!(p1(1_041_666, &sixths), (Err(13), vec![]));
        let weights = [WHOLE / 4, WHOLE / 4, WHOLE / 2];
        assert_eq!(p1(2 * PERCENT, &weights), (Ok([3, 4, 3]), quarters));
        let weights = [33_333_300, 16_666_700, WHOLE / 2];
        assert_eq!(p1(2 * PERCENT, &weights), (Ok([1, 4, 16]), mirrored));
        assert_eq!(p1(WHOLE, &[0, 0, WHOLE]), (Ok([4, 4, 0]), P1.to_vec()));
        assert_eq!(p1(0, &[0, 0, WHOLE]), (Ok([2, 3, 16]), taken));
    }

    /// The lowest churn is at r 1, in the middle, at two r below another, at all.
    #[test]
    fn the_lowest_churn_and_then_the_largest_r() {
        let made = |tolerance, old: &[u64], weights: &[u64]| {
            let mut room = vec![0; old.len()];
            let ids = first_ids(weights.len());
            let made = update(2, tolerance, old, &ids, weights, &mut room).unwrap();
            room.truncate(3 * made.rules);
            ([made.keep as u64, made.churn], room)
        };
        let half = [WHOLE / 2; 2];
        // r 2 makes *>1 *0>2 *1>3, which moves 3.
        let old = [2, 0, 3, 1, 0, 2, 0, 0, 1];
        let list = vec![2, 1, 2, 1, 0, 3, 0, 0, 1];
        let weights = [20, 30, 50].map(|part| part * PERCENT);
        assert_eq!(made(WHOLE / 4, &old, &weights), ([1, 2], list));
        // r 3 and r 1 give *0 to 2, which moves 3.
        let old = [2, 1, 2, 1, 1, 1, 1, 1, 2, 0, 0, 1];
        assert_eq!(made(0, &old, &half), ([2, 1], old[6..].to_vec()));
        // r 3 gives *0 back to 1, which moves 3; r 2 and r 1 move 1.
        let old = [2, 1, 1, 1, 1, 2, 1, 0, 2, 0, 0, 1];
        assert_eq!(made(0, &old, &half), ([2, 1], old[6..].to_vec()));
        // r 2 moves 1, r 1 none.
        let old = [1, 1, 1, 1, 1, 2, 0, 0, 1];
        let weights = [80 * PERCENT, 20 * PERCENT];
        assert_eq!(made(20 * PERCENT, &old, &weights), ([3, 0], old.to_vec()));
    }

    /// r 3 and r 2 have the same churn, and the list of r 2 is shorter.
    #[test]
    fn no_other_list_that_fits_is_answered() {
        let quarters = [WHOLE / 4, WHOLE / 4, WHOLE / 2];
        for (room, expected) in [(9, Err(7)), (11, Err(7)), (12, Ok(3))] {
            let mut room = vec![99; room];
            let answer = update(5, 2 * PERCENT, &P1, &[1, 2, 3], &quarters, &mut room);
            let kept = answer.map(|made| made.keep).map_err(Refusal::number);
            assert_eq!(kept, expected);
            assert_eq!(room.iter().all(|&number| number == 99), kept.is_err());
        }
    }

    /// `run` on a list in numbers; the new list is in numbers too, newest first.
    fn ran(k: u8, tolerance: u64, old: &[u64], keep: usize, weights: &[u64]) -> (Ending, Vec<u64>) {
        let rules = list_of(u64::from(k), old).unwrap();
        let known = Known::new(&rules, &first_ids(weights.len()), weights);
        let (ending, list) = run(k, tolerance, &rules, keep, &known);
        (ending, numbers_of(list.iter().rev()))
    }

    #[test]
    fn each_r_of_case_p1() {
        let weights = [33_333_300, 16_666_700, WHOLE / 2];
        for (keep, ending, list) in [
            (1, Ending::Within, vec![5, 4, 2, 3, 0, 2, 1, 0, 1, 0, 0, 3]),
            (2, Ending::Budget, vec![4, 2, 1, 2, 0, 1, 1, 0, 2, 0, 0, 3]),
            (3, Ending::Budget, vec![3, 4, 1, 3, 0, 1, 1, 0, 2, 0, 0, 3]),
            (4, Ending::Budget, P1.to_vec()),
        ] {
            assert_eq!(ran(5, 2 * PERCENT, &P1, keep, &weights), (ending, list));
        }
        assert_eq!(ran(5, 0, &P1, 4, &SIXTHS).0, Ending::NoGain);
    }

    #[test]
    fn the_cap_is_the_smallest_kept_suffix_or_half_the_tree() {
        let old = [3, 0, 1, 0, 0, 2];
        let (half, none) = ([WHOLE / 2, WHOLE / 2], [0, WHOLE]);
        let (one, both) = (
            |weights: &[u64]| ran(3, 0, &old, 1, weights),
            |weights: &[u64]| ran(3, 0, &old, 2, weights),
        );
        assert_eq!(one(&half), (Ending::Within, vec![1, 0, 1, 0, 0, 2]));
        assert_eq!(both(&half), (Ending::Budget, old.to_vec()));
        assert_eq!(both(&none), (Ending::Budget, old.to_vec()));
        assert_eq!(one(&none).0, Ending::Within);
        let more = [3, 1, 2, 3, 1, 2, 3, 0, 1, 0, 0, 2];
        let eighths = vec![3, 2, 1, 3, 4, 1, 3, 0, 1, 0, 0, 2];
        assert_eq!(ran(3, 0, &more, 2, &half), (Ending::Budget, eighths));
        let single = [0, 0, 1];
        let mut room = [99; 3];
        let refusal = update(1, 0, &single, &[1, 2], &half, &mut room).unwrap_err();
        assert_eq!(refusal, Reason::Stuck.at(0));
        assert_eq!(room, [99; 3]);
    }

    #[test]
    fn refusals_in_their_order() {
        let refused = |k, tolerance, old: &[u64], weights: &[u64]| {
            let ids = first_ids(weights.len());
            let refusal = update(k, tolerance, old, &ids, weights, &mut []).unwrap_err();
            assert_eq!(refusal.line, 0);
            refusal.number()
        };
        let (many, high) = ([WHOLE + 1; 33], WHOLE + 1);
        assert_eq!(refused(0, 0, &P1, &SIXTHS), 2);
        assert_eq!(refused(13, high, &[1], &many), 2);
        assert_eq!(refused(5, high, &[1], &many), 2);
        assert_eq!(refused(5, WHOLE, &[1], &many), 1);
        assert_eq!(refused(4, WHOLE, &P1, &many), 2);
        assert_eq!(refused(5, WHOLE, &P1[..9], &many), 9);
        assert_eq!(refused(5, WHOLE, &P1, &many), 4);
        assert_eq!(refused(5, WHOLE, &P1, &[]), 2);
        assert_eq!(refused(5, WHOLE, &P1, &[high]), 2);
        assert_eq!(refused(5, WHOLE, &P1, &[WHOLE - 1]), 3);
        assert_eq!(refused(5, WHOLE, &P1, &[WHOLE / 2; 2]), 7);
        assert_eq!(refused(5, 0, &P1, &SIXTHS), 13);
        assert_eq!(refused(5, WHOLE, &P1, &SIXTHS), 7);
    }

    #[test]
    fn refusals_of_ids() {
        let number = |old: &[u64], ids: &[u64], weights: &[u64]| {
            update(5, WHOLE, old, ids, weights, &mut [0; 12]).map_or_else(Refusal::number, |_| 0)
        };
        assert_eq!(number(&P1, &[9_998, 9_999], &[WHOLE / 2; 2]), 0);
        for ids in [
            &[][..],
            &[1],
            &[1, 2, 3],
            &[0, 1],
            &[2, 2],
            &[2, 1],
            &[1, 10_000],
        ] {
            let expected = if ids.len() == 2 { 2 } else { 1 };
            assert_eq!(number(&P1, ids, &[WHOLE / 2; 2]), expected, "{ids:?}");
            assert_eq!(number(&P1, ids, &[1; 2]), expected, "{ids:?}");
            assert_eq!(number(&P1, ids, &[1; 33]), 4, "{ids:?}");
            assert_eq!(number(&P1[..9], ids, &[1; 33]), 9, "{ids:?}");
        }
        assert_eq!(number(&[0, 0, 10_000], &[1], &[1]), 2);
        assert_eq!(number(&[0, 0, 9_999], &[1], &[1]), 3);
    }

    #[test]
    fn a_missing_backend_has_weight_zero_and_gives_all() {
        let old = [1, 0, 20, 0, 0, 30];
        let all = vec![1, 0, 30, 0, 0, 30];
        assert_eq!(
            updated(0, &old, &[30], &[WHOLE]),
            (Ok([1, 1, 16]), vec![0, 0, 30])
        );
        assert_eq!(
            updated(WHOLE / 2 - 1, &all, &[30], &[WHOLE]),
            (Ok([2, 2, 0]), all.clone())
        );
        let new = vec![1, 0, 9, 0, 0, 30];
        let half = [WHOLE / 2; 2];
        assert_eq!(updated(0, &old, &[9, 30], &half), (Ok([1, 2, 16]), new));
        assert_eq!(updated(0, &[0, 0, 20], &[9], &[WHOLE]), (Err(13), vec![]));
        let whole = (Ok([1, 1, 0]), vec![0, 0, 20]);
        assert_eq!(updated(WHOLE, &[0, 0, 20], &[9], &[WHOLE]), whole);
    }

    /// Old ids below and above the new ones, of like errors.
    #[test]
    fn ties_go_to_the_lowest_id_of_all() {
        let half = [WHOLE / 2; 2];
        let old = [2, 1, 9, 2, 0, 5, 1, 0, 7, 0, 0, 9];
        for (id, other) in [(3, 4), (6, 8), (10, 11)] {
            let (ending, list) = named_run(&old, 1, &[id, other], &half);
            assert_eq!(ending, Ending::Within);
            assert_eq!(list, [1, 1, other, 1, 0, id, 0, 0, 9]);
        }
        // A retired backend has *0, one of weight 0 the rest.
        for (id, first, second) in [(5, 0, 1), (8, 1, 0)] {
            let old = [2, 3, 6, 2, 3, 6, 1, 0, id, 0, 0, 6];
            let (ending, list) = named_run(&old, 2, &[6, 9], &[0, WHOLE]);
            assert_eq!(ending, Ending::Within);
            assert_eq!(list, [1, second, 9, 1, first, 9, 1, 0, id, 0, 0, 6]);
        }
    }

    fn named_run(old: &[u64], keep: usize, ids: &[u64], weights: &[u64]) -> (Ending, Vec<u64>) {
        let rules = list_of(5, old).unwrap();
        let known = Known::new(&rules, ids, weights);
        let (ending, list) = run(5, 0, &rules, keep, &known);
        (ending, numbers_of(list.iter().rev()))
    }

    #[test]
    fn all_64_backends() {
        let rule = |i: u64| [5, i, 2 * i + 1];
        let old: Vec<u64> = (1..32).flat_map(rule).chain([0, 0, 1]).collect();
        let rules = list_of(5, &old).unwrap();
        let ids: Vec<u64> = (1..=32).map(|i| 2 * i).collect();
        let known = Known::new(&rules, &ids, &[WHOLE / 32; 32]);
        assert_eq!(known.ids, first_ids(64));
        assert_eq!(known.weights, [0, WHOLE / 32].repeat(32));
        let (answer, list) = updated(WHOLE / 32, &old, &ids, &[WHOLE / 32; 32]);
        assert_eq!((answer, list), (Ok([32, 32, 0]), old.clone()));
        let (answer, list) = updated(WHOLE / 32 - 1, &old, &ids, &[WHOLE / 32; 32]);
        assert_eq!((answer, list), (Err(13), vec![]));
    }

    #[test]
    fn two_sheets_and_which_of_them() {
        let said = |old: &str, sheet: &str, service, room| {
            let mut room = vec![99; room];
            match update_sheets(old.as_bytes(), sheet.as_bytes(), service, &mut room) {
                Ok((k, made)) => format!("{k} {made:?} {room:?}"),
                Err(refusal) => {
                    assert!(room.iter().all(|&number| number == 99));
                    refusal.to_string()
                }
            }
        };
        let old = "TABLE 5 3 0\n1 *0 2\n1 * 1\n2 * 3\n";
        let sheet = "SHEET 5 0 9\nSERVICE 1 1:75 2:25\nSERVICE 1 1:50 2:50\n";
        let (long, other) = ("\n".repeat(65_537), sheet.replace("SHEET 5", "SHEET 4"));
        let made = "5 Updated { keep: 1, rules: 2, churn: 8 } [2, 0, 2, 0, 0, 1]";
        assert_eq!(said(old, sheet, 1, 6), made);
        assert_eq!(said(old, sheet, 1, 5), "REFUSED 7 0 0");
        assert_eq!(said(old, &sheet.replace("75", "74"), 1, 6), "REFUSED 3 2 2");
        assert_eq!(
            said(old, &sheet.replace("1:75 2:25", "1:30 2:70"), 1, 0),
            "REFUSED 13 0 0"
        );
        assert_eq!(said(old, sheet, 2, 6), "REFUSED 13 0 0");
        assert_eq!(said(old, &other, 2, 6), "REFUSED 12 0 0");
        assert_eq!(said(old, &other, 3, 6), "REFUSED 8 0 1");
        assert_eq!(
            said(&format!("{old}3 * 1\n").replace("3 0", "4 0"), &other, 3, 0),
            "REFUSED 8 0 2"
        );
        assert_eq!(said(old, &long, 3, 6), "REFUSED 11 0 2");
        assert_eq!(said(&long, "", 3, 6), "REFUSED 11 0 1");
        assert_eq!(said("TABLE 5 1 0\n1 *0 1\n", "", 3, 6), "REFUSED 9 2 1");
        assert_eq!(
            said(old, "SHEET 5 0 1\nSERVICE 1 1:100\nSERVICE 1 1:100\n", 3, 6),
            "REFUSED 6 1 2"
        );
    }

    fn updated_by(run: &Run) -> Updated {
        Updated {
            keep: run.keep,
            rules: run.list.len(),
            churn: run.churn,
        }
    }

    /// Every r and the answer as they are by plain runs and plain churn.
    fn try_all(case: &Loaded) -> Vec<Run> {
        let Loaded {
            k,
            tolerance,
            old,
            new,
        } = case;
        let known = Known::new(old, &new.ids, &new.weights);
        let runs = plain::all_runs(WHOLE, *k, *tolerance, old, new);
        for expected in &runs {
            let (ending, list) = run(*k, *tolerance, old, expected.keep, &known);
            assert_eq!(ending, expected.ending, "{case:?} {}", expected.keep);
            assert_eq!(list, expected.list, "{case:?} {}", expected.keep);
            let numbers = numbers_of(list.iter().rev());
            assert!(list_of(u64::from(*k), &numbers).is_ok());
            assert!(list.len() <= old.len());
        }
        let mut told = Vec::new();
        each_within(*k, *tolerance, old, &known, |made, list| {
            told.push((made, list.clone()));
        });
        let made = |run: &Run| (updated_by(run), run.list.clone());
        let within = plain::within(&runs).into_iter().rev().map(made);
        assert_eq!(told, within.collect::<Vec<_>>(), "{case:?}");
        let found = least_churn(*k, *tolerance, old, &known);
        assert_eq!(found, plain::least_churn(&runs).map(made), "{case:?}");
        runs
    }

    /// How often the answer was found there: at which r of all, with others of its
    /// churn, and where among the r that end within.
    #[derive(Default, Debug)]
    struct Met {
        stuck: u32,
        at_all: u32,
        at_one: u32,
        in_the_middle: u32,
        tied: u32,
        not_the_largest: u32,
        not_the_smallest: u32,
        neither: u32,
    }

    impl Met {
        fn count(&mut self, runs: &[Run]) {
            let (within, all) = (plain::within(runs), runs.len());
            let Some(answer) = plain::least_churn(runs) else {
                self.stuck += 1;
                return;
            };
            let equal = within.iter().filter(|run| run.churn == answer.churn);
            let larger = within.iter().any(|run| run.keep > answer.keep);
            let smaller = within.iter().any(|run| run.keep < answer.keep);
            self.at_all += u32::from(answer.keep == all);
            self.at_one += u32::from(answer.keep == 1 && all > 1);
            self.in_the_middle += u32::from(answer.keep > 1 && answer.keep < all);
            self.tied += u32::from(equal.count() > 1);
            self.not_the_largest += u32::from(larger);
            self.not_the_smallest += u32::from(smaller);
            self.neither += u32::from(larger && smaller);
        }
    }

    #[test]
    fn every_r_is_as_by_brute_force() {
        let mut random = Random::new(61);
        let mut met = Met::default();
        for turn in 0..6_000 {
            let k = match turn % 10 {
                0 if turn % 100 == 0 => 12,
                0 => 10,
                _ => random.within(1, 8) as u8,
            };
            let case = match turn % 2 {
                0 => {
                    let most = *random.pick(&[3, 6, 12, 32, 32]);
                    let rules = random.within(2, most);
                    any_case(&mut random, k, rules)
                }
                _ => loaded(&mut random, k),
            };
            met.count(&try_all(&case));
        }
        assert!(met.stuck > 1_000 && met.at_all > 1_000, "{met:?}");
        assert!(met.at_one > 200 && met.in_the_middle > 1_000, "{met:?}");
        assert!(met.tied > 1_000 && met.not_the_smallest > 1_000, "{met:?}");
        assert!(met.not_the_largest > 60 && met.neither > 50, "{met:?}");
    }
}
