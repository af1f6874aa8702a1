//! Which r of several is answered: what every r that ends within makes of a case,
//! and the ways in which these lie to each other.

use super::loaded::Loaded;
use crate::expansion::Rule;
use crate::update::{each_within, Known, Updated};

/// How many rules the old list has, and what each r that ends within makes, the
/// largest r first.
pub struct Choice {
    rules: usize,
    within: Vec<Updated>,
}

impl Choice {
    pub fn of(case: &Loaded) -> Choice {
        let Loaded {
            k,
            tolerance,
            old,
            new,
        } = case;
        let known = Known::new(old, &new.ids, &new.weights);
        let mut within = Vec::new();
        let tell = |updated, _: &mut Vec<Rule>| within.push(updated);
        each_within(*k, *tolerance, old, &known, tell);
        Choice {
            rules: old.len(),
            within,
        }
    }

    /// The largest r that ends within.
    pub fn largest(&self) -> Option<&Updated> {
        self.within.first()
    }

    /// All r with the lowest churn, the largest first.
    fn tied(&self) -> Vec<&Updated> {
        let lowest = self.within.iter().map(|made| made.churn).min();
        let equal = |made: &&Updated| Some(made.churn) == lowest;
        self.within.iter().filter(equal).collect()
    }

    /// The r with the lowest churn, the largest if equal.
    pub fn answer(&self) -> Option<&Updated> {
        self.tied().first().copied()
    }

    /// The fewest rules of a list that ends within, if the answer has more.
    pub fn shortest(&self) -> Option<usize> {
        let fewest = self.within.iter().map(|made| made.rules).min()?;
        self.answered(|answer| fewest < answer.rules)
            .then_some(fewest)
    }

    /// The most rules of a list that ends within.
    pub fn longest(&self) -> Option<usize> {
        self.within.iter().map(|made| made.rules).max()
    }

    fn answered(&self, asked: impl Fn(&Updated) -> bool) -> bool {
        self.answer().is_some_and(asked)
    }

    /// Whether some r that ends within lies so to the answer, which is the second.
    fn beside(&self, asked: impl Fn(&Updated, &Updated) -> bool) -> bool {
        self.answered(|answer| self.within.iter().any(|other| asked(other, answer)))
    }

    /// Whether a larger r ends within too; its churn is higher.
    fn larger(&self) -> bool {
        self.beside(|other, answer| other.keep > answer.keep)
    }

    fn smaller(&self) -> bool {
        self.beside(|other, answer| other.keep < answer.keep)
    }

    /// Whether a smaller r ends within with a higher churn.
    fn smaller_worse(&self) -> bool {
        self.beside(|other, answer| other.keep < answer.keep && other.churn > answer.churn)
    }

    /// Whether so many of the rules are kept.
    fn keeps(&self, keep: usize) -> bool {
        self.answered(|answer| answer.keep == keep)
    }

    /// Whether, from the largest r down, one is worse than the best before it and
    /// a later one better.
    fn better_again(&self) -> bool {
        let (mut lowest, mut worse) = (u64::MAX, false);
        self.within.iter().any(|made| {
            let again = worse && made.churn < lowest;
            worse |= made.churn > lowest;
            lowest = lowest.min(made.churn);
            again
        })
    }
}

/// A way in which the r that end within lie to each other, and whether these do.
pub type Way = (&'static str, fn(&Choice) -> bool);

/// How many of the ways, the first ones, are such that a larger r ends within.
pub const LARGER: usize = 7;

/// The rare ones first.
pub const WAYS: [Way; 15] = [
    ("r 1, a larger one within", |choice| {
        choice.larger() && choice.keeps(1)
    }),
    ("better again after a worse one", Choice::better_again),
    ("two tied, a larger one within", |choice| {
        choice.larger() && choice.tied().len() == 2
    }),
    ("more tied, a larger one within", |choice| {
        choice.larger() && choice.tied().len() > 2
    }),
    (
        "in the middle, a larger and a smaller one worse",
        |choice| choice.larger() && choice.smaller_worse(),
    ),
    ("neither the largest nor the smallest", |choice| {
        choice.larger() && choice.smaller()
    }),
    ("not the largest", Choice::larger),
    ("tied apart", |choice| {
        let apart = |two: &[&Updated]| two[0].keep > two[1].keep + 1;
        choice.tied().windows(2).any(apart)
    }),
    ("r 1 and all tied", |choice| {
        let smallest = choice.tied().last().map(|made| made.keep);
        choice.rules > 1 && choice.keeps(choice.rules) && smallest == Some(1)
    }),
    ("tied with lists of unlike length", |choice| {
        let unlike = |two: &[&Updated]| two[0].rules != two[1].rules;
        choice.tied().windows(2).any(unlike)
    }),
    ("more than five tied", |choice| choice.tied().len() > 5),
    ("two tied", |choice| choice.tied().len() == 2),
    ("more tied", |choice| choice.tied().len() > 2),
    ("all, a smaller one worse", |choice| {
        choice.keeps(choice.rules) && choice.smaller_worse()
    }),
    ("none", |choice| choice.within.is_empty()),
];

#[cfg(test)]
mod tests {
    use super::super::asks::Ask;
    use super::super::each_answered;
    use super::super::expansion::rows;
    use super::super::loaded::of_sheets;
    use super::super::plans::{row_text, BEHIND, MARK};
    use super::super::records::Record;
    use super::*;
    use crate::lists::numbers_of;
    use crate::numerals::WHOLE;
    use crate::plain::{all_runs, least_churn};
    use std::collections::BTreeSet;

    /// A vector whose list and weights aren't refused: its kind, its case, its
    /// room, and its answer.
    struct Written {
        kind: String,
        case: Loaded,
        room: usize,
        answer: String,
    }

    /// The case of a record of an update.
    fn case_of(record: &Record) -> Option<Loaded> {
        match (record.kind, record.numbers.as_slice()) {
            ("L", &[k, tolerance, _]) => {
                let [old, ids, weights] = rows(std::str::from_utf8(record.payload).ok()?)?;
                let ask = Ask {
                    k,
                    tolerance,
                    old,
                    ids,
                    weights,
                };
                ask.case()
            }
            (_, &[service, length, _]) => {
                let (old, sheet) = record.payload.split_at(length as usize);
                of_sheets(old, sheet, service)
            }
            _ => None,
        }
    }

    fn written() -> Vec<Written> {
        let mut found = Vec::new();
        each_answered(|record, line| {
            if record.layer != "update" {
                return;
            }
            found.extend(case_of(record).map(|case| Written {
                kind: record.kind.to_string(),
                case,
                room: *record.numbers.last().unwrap() as usize,
                answer: line.to_string(),
            }));
        });
        found
    }

    /// The answer as the document has it, by plain runs.
    fn expected(vector: &Written) -> String {
        let Loaded {
            k,
            tolerance,
            old,
            new,
        } = &vector.case;
        let in_numbers = vector.kind == "L";
        let refused = |number| match in_numbers {
            true => format!("refused {number}"),
            false => format!("REFUSED {number} 0 0"),
        };
        let mut buffer = vec![MARK; vector.room + BEHIND];
        let words = match least_churn(&all_runs(WHOLE, *k, *tolerance, old, new)) {
            None => refused(13),
            Some(run) if 3 * run.list.len() > vector.room => refused(7),
            Some(run) => {
                let numbers = numbers_of(run.list.iter().rev());
                buffer[..numbers.len()].copy_from_slice(&numbers);
                let depth = if in_numbers { "" } else { &format!("{k} ") };
                format!("made {depth}{} {} {}", run.keep, run.list.len(), run.churn)
            }
        };
        format!("{words} rules{}", row_text(&buffer))
    }

    /// Up to k 10, as plain runs take long.
    #[test]
    fn every_vector_has_the_least_churn() {
        let vectors = written();
        for vector in vectors.iter().filter(|vector| vector.case.k <= 10) {
            assert_eq!(vector.answer, expected(vector), "{:?}", vector.case);
        }
    }

    /// A way in which the lists that end within lie to the room.
    type Room = (&'static str, fn(&Choice, usize) -> bool);

    const ROOMS: [Room; 2] = [
        (
            "a shorter list fits, and not the answer's",
            |choice, room| {
                let short = choice.answered(|answer| 3 * answer.rules > room);
                short && choice.shortest().is_some_and(|rules| 3 * rules <= room)
            },
        ),
        ("a longer list fits too", |choice, room| {
            let longest = choice.longest().unwrap_or(0);
            3 * longest <= room && choice.answered(|answer| answer.rules < longest)
        }),
    ];

    /// A size at its limit.
    type Size = (&'static str, fn(&Loaded) -> bool);

    const SIZES: [Size; 3] = [
        ("k 12", |case| case.k == 12),
        ("32 rules", |case| case.old.len() == 32),
        ("64 backends", |case| {
            let old = case.old.iter().map(|rule| u64::from(rule.backend));
            let known: BTreeSet<u64> = old.chain(case.new.ids.iter().copied()).collect();
            known.len() == 64
        }),
    ];

    #[test]
    fn vectors_of_every_way() {
        let vectors = written();
        for (kind, each, few) in [("L", 12, 6), ("T", 6, 3)] {
            let of_kind = vectors.iter().filter(|vector| vector.kind == kind);
            let choices: Vec<(&Written, Choice)> = of_kind
                .map(|vector| (vector, Choice::of(&vector.case)))
                .collect();
            let enough = |name: &str, least: usize, is: &dyn Fn(&Written, &Choice) -> bool| {
                let found = choices.iter().filter(|(vector, choice)| is(vector, choice));
                let count = found.count();
                assert!(count >= least, "{kind}: {count} {name}");
            };
            for (name, is) in WAYS {
                enough(name, each, &|_, choice| is(choice));
            }
            for (name, is) in ROOMS {
                enough(name, each, &|vector, choice| is(choice, vector.room));
            }
            for (name, is) in SIZES {
                enough(name, few, &|vector, choice| {
                    choice.larger() && is(&vector.case)
                });
            }
        }
    }

    #[test]
    fn a_larger_one_is_within_in_the_first_ways() {
        for vector in written() {
            let choice = Choice::of(&vector.case);
            let first = WAYS[..LARGER].iter().any(|(_, is)| is(&choice));
            assert_eq!(first, choice.larger(), "{:?}", vector.case);
        }
    }
}
