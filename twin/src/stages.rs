//! A change in stages (document 02, request 06): where it is cut, and the list
//! of each stage for the switch.

use crate::calls::{two_tables, PairRefusal};
use crate::limits::{MOST_BITS, MOST_CAPACITY, MOST_MOVED};
use crate::lists;
use crate::refusal::{Reason, Refusal};
use crate::rule_sheet::{self, push_line};
use crate::suffix::Suffix;
use std::cmp::Ordering;

/// What is to be cut into stages: two rule sheets, one service of both, how many
/// suffixes a stage may move, and how many lines the switch takes.
#[derive(Clone, Copy, Debug)]
pub struct Change<'a> {
    pub old: &'a [u8],
    pub new: &'a [u8],
    pub service: u64,
    pub limit: u64,
    pub capacity: u64,
}

/// The row of places, at which the stages end, into a lent buffer; how many there
/// are. Nothing is written if the call is refused.
pub fn stages(change: &Change, room: &mut [u64]) -> Result<usize, PairRefusal> {
    let (_, row) = cut(change, None)?;
    lists::lend(&row, room).map_err(|reason| neither(reason.at(0)))?;
    Ok(row.len())
}

/// The list of one stage, numbered from 1, as text in a lent buffer; how many
/// bytes. Nothing is written if the call is refused.
pub fn stage(change: &Change, number: u64, buffer: &mut [u8]) -> Result<usize, PairRefusal> {
    let (trees, row) = cut(change, Some(number))?;
    let stage = Stage::at(&trees, row[number as usize - 1]);
    let mut text = Vec::new();
    stage.push(ROOT, change.service, &mut text);
    rule_sheet::lend(&text, buffer).map_err(neither)
}

/// The place at which each stage ends and how many lines its list has, whatever
/// the capacity.
pub fn counted(change: &Change) -> Result<Vec<(u64, u64)>, PairRefusal> {
    let capacity = MOST_CAPACITY;
    let (trees, row) = cut(
        &Change {
            capacity,
            ..*change
        },
        None,
    )?;
    let lines = |place| u64::from(Stage::at(&trees, place).lines());
    Ok(row.into_iter().map(|place| (place, lines(place))).collect())
}

/// A refusal that is about neither sheet.
fn neither(refusal: Refusal) -> PairRefusal {
    PairRefusal { refusal, which: 0 }
}

/// Both trees and the row of places, where a stage may be asked for; everything
/// that is refused but a short loan.
fn cut(change: &Change, number: Option<u64>) -> Result<(Trees, Vec<u64>), PairRefusal> {
    let refused = |reason: Reason| neither(reason.at(0));
    let &Change {
        service,
        limit,
        capacity,
        ..
    } = change;
    let (old, new) = two_tables(change.old, change.new, service)?;
    if !(1..=MOST_MOVED).contains(&limit) || !(1..=MOST_CAPACITY).contains(&capacity) {
        return Err(refused(Reason::BadField));
    }
    let trees = Trees {
        k: old.k.into(),
        old: tree_of(&old.backends_by_place(service)),
        new: tree_of(&new.backends_by_place(service)),
    };
    let row = trees.row(limit as usize);
    if number.is_some_and(|number| number == 0 || number > row.len() as u64) {
        return Err(refused(Reason::BadField));
    }
    let crowded = |&place: &u64| u64::from(Stage::at(&trees, place).lines()) > capacity;
    if row.iter().any(crowded) {
        return Err(refused(Reason::Crowded));
    }
    Ok((trees, row))
}

/// A node of a tree: how many lines its suffix needs, and the backend that has all
/// of it if that is one.
#[derive(Clone, Copy, Default, Debug)]
struct Node {
    lines: u16,
    backend: u16,
}

impl Node {
    /// The node whose two halves these are.
    fn of_halves(self, other: Node) -> Node {
        let same = self.lines == 1 && other.lines == 1 && self.backend == other.backend;
        let lines = if same { 1 } else { self.lines + other.lines };
        Node { lines, ..self }
    }
}

/// The number of the node `*`. The halves of node n are 2n and 2n + 1, in the order
/// of tree places, so that place p of the k-bit suffixes is node 2^k + p.
const ROOT: usize = 1;

/// The nodes by number, from the backends in the order of tree places.
fn tree_of(backends: &[u16]) -> Vec<Node> {
    let count = backends.len();
    let mut nodes = vec![Node::default(); 2 * count];
    for (node, &backend) in nodes[count..].iter_mut().zip(backends) {
        *node = Node { lines: 1, backend };
    }
    for number in (ROOT..count).rev() {
        nodes[number] = nodes[2 * number].of_halves(nodes[2 * number + 1]);
    }
    nodes
}

/// The suffix of a node.
fn suffix_of(number: usize) -> Suffix {
    let length = number.ilog2();
    Suffix::at_place(length as u8, (number - (1 << length)) as u16)
}

/// The old and the new table's tree.
struct Trees {
    k: usize,
    old: Vec<Node>,
    new: Vec<Node>,
}

impl Trees {
    /// Where the stages end: each before the first suffix that is one too many to
    /// move, the last behind all.
    fn row(&self, limit: usize) -> Vec<u64> {
        let count = 1 << self.k;
        let pairs = self.old[count..].iter().zip(&self.new[count..]);
        let moved = (0..)
            .zip(pairs)
            .filter(|(_, (old, new))| old.backend != new.backend)
            .map(|(place, _)| place);
        let mut row: Vec<u64> = moved.step_by(limit).skip(1).collect();
        row.push(count as u64);
        row
    }
}

/// The tree of a stage, which has the nodes of the new tree below a place and those
/// of the old one from it on. Only the nodes above that place, one of each length,
/// may be of both and are made.
struct Stage<'a> {
    trees: &'a Trees,
    /// The node of the place; one behind the last if nothing is old.
    leaf: usize,
    above: [Node; MOST_BITS as usize + 1],
}

impl<'a> Stage<'a> {
    fn at(trees: &'a Trees, place: u64) -> Stage<'a> {
        let leaf = (1 << trees.k) + place as usize;
        let mut stage = Stage {
            trees,
            leaf,
            above: Default::default(),
        };
        let Some(&first) = trees.old.get(leaf) else {
            return stage;
        };
        stage.above[trees.k] = first;
        let (mut node, mut number) = (first, leaf);
        for length in (0..trees.k).rev() {
            node = match number % 2 {
                0 => node.of_halves(trees.old[number + 1]),
                _ => trees.new[number - 1].of_halves(node),
            };
            number /= 2;
            stage.above[length] = node;
        }
        stage
    }

    fn node(&self, number: usize) -> Node {
        let length = number.ilog2() as usize;
        let above = self.leaf >> (self.trees.k - length);
        match number.cmp(&above) {
            Ordering::Less => self.trees.new[number],
            Ordering::Equal => self.above[length],
            Ordering::Greater => self.trees.old[number],
        }
    }

    /// How many lines its list has.
    fn lines(&self) -> u16 {
        self.node(ROOT).lines
    }

    /// Appends the lines of a node: one if one backend has it all, else those of
    /// its halves.
    fn push(&self, number: usize, service: u64, text: &mut Vec<u8>) {
        let node = self.node(number);
        if node.lines == 1 {
            push_line(service, suffix_of(number), node.backend.into(), text);
        } else {
            self.push(2 * number, service, text);
            self.push(2 * number + 1, service, text);
        }
    }
}

#[cfg(test)]
mod tests {
    use super::*;
    use crate::plain_stages::{refused, Plain};
    use crate::random::Random;
    use crate::rule_sheet::text_of;
    use crate::vectors::shapes::rule_table;

    /// A rule sheet of lines that stand between commas.
    fn sheet(k: u8, lines: &str) -> Vec<u8> {
        let (n, lines) = (lines.split(',').count(), lines.replace(',', "\n"));
        format!("TABLE {k} {n} 0\n{lines}\n").into_bytes()
    }

    /// The row and the refusal's numbers.
    fn row_of(change: &Change) -> Result<Vec<u64>, String> {
        let mut room = [0; MOST_MOVED as usize];
        let count = stages(change, &mut room).map_err(|refusal| refusal.to_string())?;
        Ok(room[..count].to_vec())
    }

    /// The lines of a stage, between commas.
    fn list_of(change: &Change, number: u64) -> Result<String, String> {
        let mut buffer = [b'.'; 65_536];
        let end = stage(change, number, &mut buffer).map_err(|refusal| refusal.to_string())?;
        assert!(buffer[end..].iter().all(|&byte| byte == b'.'));
        let text = String::from_utf8(buffer[..end].to_vec()).unwrap();
        Ok(text.trim_end().replace('\n', ","))
    }

    /// By place the old backends are 2 2 1 1 and the new ones 3 2 1 3.
    #[test]
    fn stages_of_four_places() {
        let (old, new) = (sheet(2, "7 *0 2,7 * 1"), sheet(2, "7 *10 2,7 *01 1,7 * 3"));
        let change = |limit| Change {
            old: &old,
            new: &new,
            service: 7,
            limit,
            capacity: 4,
        };
        assert_eq!(row_of(&change(1)), Ok(vec![3, 4]));
        assert_eq!(row_of(&change(2)), Ok(vec![4]));
        assert_eq!(row_of(&change(4_096)), Ok(vec![4]));
        let (first, last) = ("7 *00 3,7 *10 2,7 *1 1", "7 *00 3,7 *10 2,7 *01 1,7 *11 3");
        assert_eq!(list_of(&change(1), 1).unwrap(), first);
        assert_eq!(list_of(&change(1), 2).unwrap(), last);
        assert_eq!(list_of(&change(2), 1).unwrap(), last);
        for number in [0, 3, u64::MAX] {
            assert_eq!(list_of(&change(1), number).unwrap_err(), "REFUSED 2 0 0");
        }
    }

    #[test]
    fn equal_tables_make_one_stage() {
        let (old, new) = (sheet(12, "1 *01 5,1 *0 5,1 * 5"), sheet(12, "1 * 5"));
        for (old, new) in [(&old, &new), (&new, &old), (&old, &old)] {
            let change = Change {
                old,
                new,
                service: 1,
                limit: 1,
                capacity: 1,
            };
            assert_eq!(row_of(&change), Ok(vec![4_096]));
            assert_eq!(list_of(&change, 1).unwrap(), "1 * 5");
            assert_eq!(list_of(&change, 2).unwrap_err(), "REFUSED 2 0 0");
        }
    }

    #[test]
    fn every_suffix_a_stage() {
        let (old, new) = (sheet(12, "1 * 1"), sheet(12, "1 * 9999"));
        let change = |capacity| Change {
            old: &old,
            new: &new,
            service: 1,
            limit: 1,
            capacity,
        };
        let all: Vec<u64> = (1..=4_096).collect();
        assert_eq!(row_of(&change(13)), Ok(all));
        assert_eq!(row_of(&change(12)).unwrap_err(), "REFUSED 14 0 0");
        let half = "1 *0 9999,1 *1 1";
        assert_eq!(list_of(&change(13), 2_048).unwrap(), half);
        assert_eq!(list_of(&change(13), 4_096).unwrap(), "1 * 9999");
        assert_eq!(list_of(&change(12), 4_096).unwrap_err(), "REFUSED 14 0 0");
        assert_eq!(list_of(&change(12), 4_097).unwrap_err(), "REFUSED 2 0 0");
    }

    /// With limit 1 the four stages have three, two, three and two lines, with
    /// limit 2 both have two; the old table isn't looked at.
    #[test]
    fn any_stage_may_be_the_crowded_one() {
        let (old, new) = (sheet(2, "1 *0 1,1 * 2"), sheet(2, "1 *0 3,1 * 4"));
        for (limit, capacity, expected) in [
            (1, 3, Ok(vec![1, 2, 3, 4])),
            (1, 2, Err("REFUSED 14 0 0".to_string())),
            (2, 2, Ok(vec![2, 4])),
            (2, 1, Err("REFUSED 14 0 0".to_string())),
        ] {
            let change = Change {
                old: &old,
                new: &new,
                service: 1,
                limit,
                capacity,
            };
            assert_eq!(row_of(&change), expected);
        }
        let plain = sheet(2, "1 * 1");
        for (old, new, expected) in [(&plain, &old, false), (&old, &plain, true)] {
            let change = Change {
                old,
                new,
                service: 1,
                limit: 4,
                capacity: 1,
            };
            assert_eq!(row_of(&change).is_ok(), expected);
        }
    }

    #[test]
    fn refusals_in_their_order() {
        let (good, other) = (sheet(2, "1 * 1,2 *0 3,2 * 4"), sheet(2, "2 *1 5,2 * 6"));
        let deep = sheet(3, "2 * 1");
        let refused = |old: &[u8], new: &[u8], [service, limit, capacity, number]: [u64; 4]| {
            let change = Change {
                old,
                new,
                service,
                limit,
                capacity,
            };
            let mut buffer = [b'.'; 8];
            let refusal = stage(&change, number, &mut buffer).unwrap_err();
            assert_eq!(&buffer, b"........");
            let mut room = [77; 3];
            let row = stages(&change, &mut room);
            assert!(number != 1 || row == Err(refusal));
            assert_eq!(room, [77; 3]);
            refusal.to_string()
        };
        for (old, new, numbers, expected) in [
            (&b""[..], &b"\n"[..], [3, 0, 0, 0], "1 1 1"),
            (&good, b"", [3, 0, 0, 0], "1 1 2"),
            (&other, &deep, [1, 0, 0, 0], "8 0 1"),
            (&good, &deep, [1, 0, 0, 0], "8 0 2"),
            (&good, &deep, [2, 0, 0, 0], "12 0 0"),
            (&good, &other, [2, 0, 1, 1], "2 0 0"),
            (&good, &other, [2, 4_097, 1, 1], "2 0 0"),
            (&good, &other, [2, 1, 0, 1], "2 0 0"),
            (&good, &other, [2, 1, 2_049, 1], "2 0 0"),
            (&good, &other, [2, 1, 1, 0], "2 0 0"),
            (&good, &other, [2, 1, 1, 5], "2 0 0"),
            (&good, &other, [2, 1, 1, 1], "14 0 0"),
            (&good, &other, [2, 1, 2_048, 1], "7 0 0"),
        ] {
            let refusal = refused(old, new, numbers);
            assert_eq!(refusal, format!("REFUSED {expected}"), "{numbers:?}");
        }
    }

    #[test]
    fn a_loan_is_written_whole_or_not_at_all() {
        let (old, new) = (sheet(1, "1 * 1"), sheet(1, "1 * 20"));
        let change = Change {
            old: &old,
            new: &new,
            service: 1,
            limit: 1,
            capacity: 2,
        };
        let mut room = [77; 3];
        assert_eq!(stages(&change, &mut room), Ok(2));
        assert_eq!(room, [1, 2, 77]);
        assert_eq!(stages(&change, &mut room[..2]), Ok(2));
        let mut buffer = [b'.'; 17];
        assert_eq!(stage(&change, 1, &mut buffer), Ok(15));
        assert_eq!(&buffer, b"1 *0 20\n1 *1 1\n..");
        assert_eq!(stage(&change, 2, &mut buffer[..7]), Ok(7));
        assert_eq!(&buffer, b"1 * 20\n\n1 *1 1\n..");
        for short in [0, 14] {
            let refusal = stage(&change, 1, &mut buffer[..short]).unwrap_err();
            assert_eq!(refusal.to_string(), "REFUSED 7 0 0");
        }
        assert_eq!(&buffer, b"1 * 20\n\n1 *1 1\n..");
    }

    /// Two sheets of one k, most of them near each other, and a service of both.
    fn any_sheets(random: &mut Random, k: u64) -> Option<(Vec<u8>, Vec<u8>, u64)> {
        let old = rule_table(random, k, 2);
        let mut new = old.clone();
        match random.below(3) {
            0 => new = rule_table(random, k, 2),
            _ => {
                for _ in 0..random.below(4) {
                    let (to, from) = (random.bits() as usize, random.bits() as usize);
                    let count = new.lines.len();
                    new.lines[to % count].rule.backend = old.lines[from % count].rule.backend;
                }
            }
        }
        let service = u64::from(random.pick(&old.lines).service);
        let found = !new.lines_of(service).is_empty();
        found.then(|| (text_of(&old), text_of(&new), service))
    }

    /// The refusal that plain counting finds, as it is shown.
    fn refused_text(change: &Change, number: Option<u64>) -> Option<String> {
        refused(change, number).map(|number| format!("REFUSED {number} 0 0"))
    }

    #[test]
    fn rows_and_lists_are_the_plain_ones() {
        let mut random = Random::new(79);
        let mut refusals = [0; 15];
        for turn in 0..2_000 {
            let k = 1 + turn % 5;
            let Some((old, new, service)) = any_sheets(&mut random, k) else {
                continue;
            };
            let part = *random.pick(&[1, 2, 4, 16]);
            let change = Change {
                old: &old,
                new: &new,
                service,
                limit: random.within(0, 1 + (1 << k) / part),
                capacity: random.within(1, 2 << k),
            };
            let row = row_of(&change);
            for number in 0..5 {
                let list = list_of(&change, number);
                assert_eq!(list.err(), refused_text(&change, Some(number)));
            }
            refusals[usize::from(refused(&change, None).unwrap_or(0))] += 1;
            if let Some(refusal) = refused_text(&change, None) {
                assert_eq!(row, Err(refusal));
                continue;
            }
            let plain = Plain::of(&change);
            assert_eq!(row, Ok(plain.row(change.limit)));
            for (&place, number) in row.unwrap().iter().zip(1..) {
                let line = |line: &String| format!("{service} {line}");
                let lines: Vec<String> = plain.list(place).iter().map(line).collect();
                assert_eq!(list_of(&change, number).unwrap(), lines.join(","));
            }
        }
        let enough = [0, 2, 14].map(|number| refusals[number] > 100);
        assert_eq!(enough, [true; 3], "{refusals:?}");
    }

    #[test]
    fn no_other_row_has_fewer_stages() {
        let mut random = Random::new(83);
        for turn in 0..400 {
            let k = 1 + turn % 4;
            let Some((old, new, service)) = any_sheets(&mut random, k) else {
                continue;
            };
            let change = Change {
                old: &old,
                new: &new,
                service,
                limit: random.within(1, 1 << k),
                capacity: MOST_CAPACITY,
            };
            let plain = Plain::of(&change);
            let stages = row_of(&change).unwrap().len();
            assert_eq!(stages, plain.fewest(change.limit));
            if k < 4 {
                assert_eq!(stages, plain.fewest_ascending(change.limit));
            }
        }
    }
}
