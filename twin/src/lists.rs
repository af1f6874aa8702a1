//! The list of one service in numbers: three for each rule, newest rule first,
//! the length and the value of its suffix and the id of its backend.

use crate::expansion::Rule;
use crate::handed::line_of;
use crate::refusal::Reason;
use crate::table::LineOrder;

/// The rules that are handed over, newest first, checked as their sheet would
/// be; numbers left over are a last rule of too few fields.
pub fn list_of(k: u64, numbers: &[u64]) -> Result<Vec<Rule>, Reason> {
    if numbers.is_empty() {
        return Err(Reason::BadField);
    }
    let (whole, rest) = numbers.as_chunks::<3>();
    let mut order = LineOrder::new();
    let mut rules = Vec::with_capacity(whole.len());
    for &[length, value, backend] in whole {
        let line = line_of(k, &[1, length, value, backend]).ok_or(Reason::BadField)?;
        order.admit(&line)?;
        rules.push(line.rule);
    }
    if !rest.is_empty() {
        Err(Reason::Malformed)
    } else if !order.complete() {
        Err(Reason::Order)
    } else {
        Ok(rules)
    }
}

/// The numbers of rules, in the order of the rules.
pub fn numbers_of<'a>(rules: impl Iterator<Item = &'a Rule>) -> Vec<u64> {
    let three = |rule: &Rule| {
        let (length, value) = (rule.suffix.length(), rule.suffix.value());
        [length.into(), value.into(), rule.backend.into()]
    };
    rules.flat_map(three).collect()
}

/// Copies numbers to the front of a lent buffer, or finds it too short.
pub fn lend(numbers: &[u64], room: &mut [u64]) -> Result<(), Reason> {
    let front = room.get_mut(..numbers.len());
    front.ok_or(Reason::ShortLoan)?.copy_from_slice(numbers);
    Ok(())
}

#[cfg(test)]
mod tests {
    use super::*;
    use crate::handed::table_of;
    use crate::random::Random;
    use crate::vectors::loaded::{any_list, spoil_list};
    use crate::vectors::shapes::ids;

    #[test]
    fn a_list_is_checked_as_a_sheet_of_one_service() {
        let mut random = Random::new(67);
        for _ in 0..20_000 {
            let k = random.within(1, 12);
            let rules = *random.pick(&[1, 2, 4, 31, 32, 33, 34]);
            let ids = ids(&mut random, 32);
            let list = any_list(&mut random, k as u8, rules, &ids);
            let mut numbers = numbers_of(list.iter());
            spoil_list(&mut random, &mut numbers);
            let rules = numbers.chunks(3).map(|rule| [&[1], rule].concat());
            let lines = rules.collect::<Vec<_>>().concat();
            let table = table_of(k, 0, &lines);
            if table == Err(Reason::TooLong) {
                continue;
            }
            let expected = table.map(|table| table.lines.iter().map(|line| line.rule).collect());
            assert_eq!(list_of(k, &numbers), expected, "{k} {numbers:?}");
        }
    }

    #[test]
    fn refusals_of_a_list_in_their_order() {
        let refused = |numbers: &[u64]| list_of(5, numbers).unwrap_err() as u8;
        let many = [1, 0, 1].repeat(32);
        let behind = |rule: &[u64]| [&many[..], rule].concat();
        assert_eq!(refused(&[]), 2);
        assert_eq!(refused(&[6]), 1);
        assert_eq!(refused(&[0, 1]), 1);
        for rule in [[6, 0, 1], [1, 2, 1], [0, 1, 1], [0, 0, 0], [0, 0, 10_000]] {
            assert_eq!(refused(&rule), 2);
            assert_eq!(refused(&[&rule[..], &[1]].concat()), 2);
            assert_eq!(refused(&behind(&rule)), 2);
        }
        assert_eq!(refused(&behind(&[2, 0, 1])), 4);
        assert_eq!(refused(&behind(&[0, 0])), 1);
        assert_eq!(refused(&many), 9);
        assert_eq!(refused(&[0, 0, 1, 0, 0, 1]), 9);
        assert_eq!(refused(&[1, 0, 1, 2, 0, 1, 0, 0, 10_000]), 9);
        assert_eq!(refused(&[1, 0, 1, 2, 0, 1, 0]), 9);
        assert_eq!(refused(&[1, 0, 1]), 9);
        assert_eq!(refused(&[1, 0, 1, 0]), 1);
    }
}
