//! Vectors for a change in stages: `P` for its row of places, `L` for the list of
//! one stage, each with a lent buffer of so many numbers or bytes.

use super::changes::{self, Ask, Fault};
use super::expansion::numbers;
use super::plans::{row_text, BEHIND, MARK};
use super::records::{Record, Records};
use super::sheets::shown;
use super::spoil::spoil;
use crate::lines::find_lf;
use crate::random::Random;
use crate::stages::{stage, stages};

/// The largest loans that are shown number by number and byte by byte; of larger
/// ones a sum is shown, to which each adds as often as its place says.
const SHOWN_NUMBERS: usize = 60;
const SHOWN_BYTES: usize = 300;

/// What the twin says to one record, and all of the buffer afterwards; nothing if
/// the record is of no kind.
pub fn answer(record: &Record) -> Option<String> {
    let (ask, room) = ask_of(record)?;
    let made = |count: usize| format!("made {count}");
    match record.kind {
        "P" => {
            let mut row = vec![MARK; room + BEHIND];
            let count = stages(&ask.change(), &mut row[..room]);
            let row = match room <= SHOWN_NUMBERS {
                true => format!("row{}", row_text(&row)),
                false => sum_text(row.into_iter()),
            };
            Some(format!("{} {row}", shown(count.map(made))))
        }
        "L" => {
            let mut text = vec![b'.'; room + BEHIND];
            let count = stage(&ask.change(), ask.number, &mut text[..room]);
            let text = match room <= SHOWN_BYTES {
                true => String::from_utf8_lossy(&text).replace('\n', "/"),
                false => sum_text(text.into_iter().map(u64::from)),
            };
            Some(format!("{} {text}", shown(count.map(made))))
        }
        _ => None,
    }
}

fn sum_text(numbers: impl Iterator<Item = u64>) -> String {
    let sum: u64 = numbers.zip(1..).map(|(number, place)| number * place).sum();
    format!("sum {sum}")
}

/// What a record asks, and the room.
fn ask_of(record: &Record) -> Option<(Ask, usize)> {
    let &[service, length, room] = record.numbers.as_slice() else {
        return None;
    };
    let lf = find_lf(record.payload, 0)?;
    let (line, texts) = (&record.payload[..lf], &record.payload[lf + 1..]);
    let beside = numbers(std::str::from_utf8(line).ok()?)?;
    let &[limit, capacity, number] = beside.as_slice() else {
        return None;
    };
    let (old, new) = texts.split_at_checked(usize::try_from(length).ok()?)?;
    let ask = Ask {
        capacity,
        number,
        ..Ask::new(old, new, service, limit)
    };
    Some((ask, usize::try_from(room).ok()?))
}

fn add(records: &mut Records, kind: &str, ask: &Ask, room: usize) {
    let header = format!("{kind} {} {} {room}", ask.service, ask.old.len());
    let line = format!("{} {} {}\n", ask.limit, ask.capacity, ask.number);
    let payload = [line.as_bytes(), &ask.old, &ask.new].concat();
    records.add(&header, &payload);
}

/// The row, whatever the number of a stage.
fn add_row(records: &mut Records, ask: &Ask, room: usize) {
    add(records, "P", &ask.with_number(1), room);
}

fn add_list(records: &mut Records, ask: &Ask, room: usize) {
    add(records, "L", ask, room);
}

/// The room for a row, which is shown only if it is short; a little if the call is
/// refused.
fn row_room(ask: &Ask) -> usize {
    match ask.stages() as usize {
        0 => 1,
        count @ 1..=12 => count,
        count => count.max(SHOWN_NUMBERS + 1),
    }
}

/// The room for a list, which is shown only if it is short.
fn list_room(ask: &Ask) -> usize {
    match ask.bytes() {
        0 => 4,
        count @ 1..=100 => count,
        count => count.max(SHOWN_BYTES + 1),
    }
}

fn add_both(records: &mut Records, ask: &Ask) {
    add_row(records, ask, row_room(ask));
    add_list(records, ask, list_room(ask));
}

/// Adds all of them.
pub fn add_all(records: &mut Records) {
    let mut random = Random::new(23);
    small(records);
    numbers_beside(records);
    faulty(records);
    rooms(records);
    longest(records);
    long_lists(records);
    crowded(records, &mut random);
    at_random(records, &mut random);
    spoilt(records, &mut random);
}

/// Rows of small changes and one list of each, equal tables, services.
fn small(records: &mut Records) {
    for (turn, ask) in changes::small().iter().enumerate() {
        match turn % 3 {
            0 => add_row(records, ask, row_room(ask)),
            _ => {
                let ask = ask.with_number(1 + turn as u64 % ask.stages());
                add_list(records, &ask, list_room(&ask));
            }
        }
    }
    for (turn, ask) in changes::equal().iter().enumerate() {
        match turn % 3 {
            0 => add_both(records, ask),
            1 => add_row(records, ask, 1),
            _ => add_list(records, ask, list_room(ask)),
        }
    }
    for (turn, ask) in changes::services().iter().enumerate() {
        match turn % 2 {
            0 => add_row(records, ask, row_room(ask)),
            _ => add_list(records, ask, list_room(ask)),
        }
    }
}

/// Limits, capacities and numbers of stages at their limits and beyond.
fn numbers_beside(records: &mut Records) {
    let ask = changes::all_moved();
    for limit in [0, 1, 2, 15, 16, 17, 4_095, 4_096, 4_097, u64::MAX] {
        add_both(records, &ask.with_limit(limit));
    }
    for capacity in [0, 1, 2, 5, 6, 7, 2_047, 2_048, 2_049, u64::MAX] {
        add_both(records, &ask.with_capacity(capacity));
    }
    let last = ask.stages();
    for number in (0..=last + 1).chain([256, 257, 4_096, 4_097, 1 << 32, u64::MAX]) {
        let ask = ask.with_number(number);
        add_list(records, &ask, list_room(&ask));
    }
}

/// Each refusal before another, and sheets of every refusal.
fn faulty(records: &mut Records) {
    for (turn, faults) in changes::fault_sets().iter().enumerate() {
        let ask = changes::with_faults(faults, turn);
        let short = faults.contains(&Fault::Room);
        if !faults.contains(&Fault::Number) {
            add_row(records, &ask, 2 - usize::from(short));
        }
        add_list(records, &ask, if short { 3 } else { 40 });
    }
    for ask in changes::of_bad_sheets() {
        add_row(records, &ask, 1);
        add_list(records, &ask, 1);
    }
}

/// Rooms around what is needed and around what is shown.
fn rooms(records: &mut Records) {
    let moved = changes::all_moved();
    for limit in [1, 5, 16] {
        let ask = moved.with_limit(limit);
        let needed = ask.stages() as usize;
        for room in [0, needed - 1, needed, needed + 1, 60, 61] {
            add_row(records, &ask, room);
        }
        let ask = ask.with_number(ask.stages().div_ceil(2));
        let needed = ask.bytes();
        for room in [0, 1, needed - 1, needed, needed + 1, 300, 301] {
            add_list(records, &ask, room);
        }
    }
}

/// 4,096 stages and as many suffixes to move in other numbers of stages.
fn longest(records: &mut Records) {
    let ask = changes::longest();
    for room in [0, 4_095, 4_096] {
        add_row(records, &ask, room);
    }
    for capacity in [12, 13] {
        add_row(records, &ask.with_capacity(capacity), 4_096);
    }
    for number in [0, 1, 2, 1_365, 2_048, 4_095, 4_096, 4_097] {
        let ask = ask.with_number(number);
        add_list(records, &ask, list_room(&ask));
    }
    for limit in [2, 68, 69, 1_024, 2_047, 2_048, 4_095, 4_096] {
        let ask = ask.with_limit(limit);
        add_row(records, &ask, row_room(&ask));
        let last = ask.with_number(ask.stages());
        add_list(records, &last, list_room(&last));
    }
}

/// Lists of some hundred lines, the capacity and the room just met and missed.
fn long_lists(records: &mut Records) {
    for (turn, ask) in changes::crowds().into_iter().enumerate() {
        let lines = ask.lines();
        let most = *lines.iter().max().expect("a change has a stage");
        let ask = ask.with_capacity(most - u64::from(turn % 4 == 3));
        add_row(records, &ask, row_room(&ask));
        let at = lines.iter().position(|&count| count == most);
        let ask = ask.with_number(1 + at.expect("some stage has the most") as u64);
        let needed = ask.bytes();
        add_list(records, &ask, [needed, needed - 1, needed + 1][turn % 3]);
        add_list(records, &ask.with_number(1), list_room(&ask));
    }
}

/// Capacities that one stage alone meets just, and that it misses.
fn crowded(records: &mut Records, random: &mut Random) {
    for (turn, (ask, most)) in changes::crowded(random, 2..=12).iter().enumerate() {
        let (met, missed) = (ask.with_capacity(*most), ask.with_capacity(most - 1));
        match turn % 2 {
            0 => add_row(records, &met, row_room(ask)),
            _ => add_list(records, &met, list_room(ask)),
        }
        add_row(records, &missed, 1);
        let other = missed.with_number(ask.number % ask.stages() + 1);
        add_list(records, &other, 4);
    }
}

/// Most often the room needed; else one less, one more or none.
fn some_room(turn: usize, needed: usize) -> usize {
    match turn % 9 {
        2 => needed - 1,
        5 => needed + 1,
        7 if needed > 60 => 0,
        _ => needed,
    }
}

/// Changes of every k, some with too little capacity.
fn at_random(records: &mut Records, random: &mut Random) {
    for turn in 0..96 {
        let mut ask = changes::any_change(random, 1 + turn as u64 % 12);
        let most = *ask.lines().iter().max().expect("a change has a stage");
        ask.capacity = match random.below(6) {
            0 => random.within(1, most),
            1 => most,
            _ => random.within(most, 2_048),
        };
        ask.number = random.within(1, ask.stages());
        match turn / 12 % 2 {
            0 => add_row(records, &ask, some_room(turn, row_room(&ask))),
            _ => add_list(records, &ask, some_room(turn, list_room(&ask))),
        }
    }
}

/// Changes of which one sheet is spoilt.
fn spoilt(records: &mut Records, random: &mut Random) {
    for turn in 0..24 {
        let mut ask = changes::any_change(random, 1 + turn % 12);
        match turn % 2 {
            0 => ask.old = spoil(random, &ask.old),
            _ => ask.new = spoil(random, &ask.new),
        }
        match turn / 2 % 2 {
            0 => add_row(records, &ask, row_room(&ask)),
            _ => add_list(records, &ask, list_room(&ask)),
        }
    }
}

#[cfg(test)]
mod tests {
    use super::super::changes::{only, FAULTS, WAYS};
    use super::super::records::take_record;
    use super::*;
    use crate::calls::churn;
    use crate::plain_stages::Plain;
    use crate::rule_sheet::read;
    use crate::table::Table;

    /// A vector with its answer, and what is known of it.
    struct Written {
        kind: String,
        ask: Ask,
        room: usize,
        answer: String,
        tables: [Option<Table>; 2],
        /// The lines of each stage, whatever the capacity; none if there is no row.
        lines: Vec<u64>,
    }

    fn written() -> Vec<Written> {
        let mut records = Records::default();
        records.begin("t");
        add_all(&mut records);
        let mut file = records.bytes();
        let mut found = Vec::new();
        while !file.is_empty() {
            let record = take_record(&mut file).unwrap();
            let (ask, room) = ask_of(&record).unwrap();
            found.push(Written {
                kind: record.kind.to_string(),
                room,
                answer: answer(&record).unwrap(),
                tables: [&ask.old, &ask.new].map(|text| read(text).ok()),
                lines: ask.lines(),
                ask,
            });
        }
        found
    }

    impl Written {
        fn is_list(&self) -> bool {
            self.kind == "L"
        }

        fn made(&self) -> bool {
            self.answer.starts_with("made ")
        }

        fn refused(&self, number: u64) -> bool {
            self.answer.starts_with(&format!("REFUSED {number} 0 0 "))
        }

        fn k(&self) -> u8 {
            self.tables[0].as_ref().map_or(0, |table| table.k)
        }

        fn stages(&self) -> u64 {
            self.lines.len() as u64
        }

        fn most(&self) -> u64 {
            self.lines.iter().copied().max().unwrap_or(0)
        }

        /// How many numbers or bytes the answer needs.
        fn needed(&self) -> usize {
            match self.is_list() {
                true => self.ask.bytes(),
                false => self.lines.len(),
            }
        }

        fn churn(&self) -> Option<u64> {
            churn(&self.ask.old, &self.ask.new, self.ask.service).ok()
        }

        /// Whether just one stage is beyond the capacity, and it is such a one.
        fn one_crowded(&self, is: fn(&[u64]) -> bool) -> bool {
            let capacity = self.ask.capacity;
            let beyond = self.lines.iter().filter(|&&lines| lines > capacity);
            self.refused(14) && beyond.count() == 1 && is(&self.lines)
        }

        fn has(&self, fault: Fault) -> bool {
            let Ask {
                service,
                limit,
                capacity,
                number,
                ..
            } = self.ask;
            let lacks = |table: &Table| table.lines_of(service).is_empty();
            let depth = |table: &Table| table.k;
            let [old, new] = self.tables.each_ref().map(Option::as_ref);
            match fault {
                Fault::OldSheet => old.is_none(),
                Fault::NewSheet => new.is_none(),
                Fault::OldService => old.is_some_and(lacks),
                Fault::NewService => new.is_some_and(lacks),
                Fault::Depth => old.zip(new).is_some_and(|(a, b)| depth(a) != depth(b)),
                Fault::Limit => !(1..=4_096).contains(&limit),
                Fault::Capacity => !(1..=2_048).contains(&capacity),
                Fault::Number if !self.is_list() => false,
                Fault::Number => number == 0 || self.stages() > 0 && number > self.stages(),
                Fault::Crowded => self.most() > capacity,
                Fault::Room => self.needed() > self.room,
            }
        }

        /// What is answered for a fault.
        fn refusal(&self, fault: Fault) -> String {
            let of_sheet = |text: &[u8]| read(text).unwrap_err().to_string();
            match fault {
                Fault::OldSheet => of_sheet(&self.ask.old) + " 1",
                Fault::NewSheet => of_sheet(&self.ask.new) + " 2",
                Fault::OldService => "REFUSED 8 0 1".to_string(),
                Fault::NewService => "REFUSED 8 0 2".to_string(),
                Fault::Depth => "REFUSED 12 0 0".to_string(),
                Fault::Limit | Fault::Capacity | Fault::Number => "REFUSED 2 0 0".to_string(),
                Fault::Crowded => "REFUSED 14 0 0".to_string(),
                Fault::Room => "REFUSED 7 0 0".to_string(),
            }
        }
    }

    #[test]
    fn every_vector_tells_its_first_fault() {
        for vector in written() {
            let first = FAULTS.into_iter().find(|&fault| vector.has(fault));
            let expected = match first {
                Some(fault) => vector.refusal(fault),
                None => format!("made {}", vector.needed()),
            };
            let told = vector.answer.starts_with(&format!("{expected} "));
            assert!(told, "{first:?} {:?} {}", vector.ask, vector.answer);
        }
    }

    /// Up to k 6, as plain counting takes long.
    #[test]
    fn every_vector_has_the_plain_row_or_list() {
        let all = written();
        let small = all.iter().filter(|vector| vector.made() && vector.k() < 7);
        for vector in small {
            let Ask { limit, number, .. } = vector.ask;
            let plain = Plain::of(&vector.ask.change());
            let row = plain.row(limit);
            let shown = if vector.is_list() {
                let line = |line: &String| format!("{} {line}\n", vector.ask.service);
                let lines = plain.list(row[number as usize - 1]);
                let mut text: Vec<u8> = lines.iter().map(line).collect::<String>().into_bytes();
                text.resize(vector.room + BEHIND, b'.');
                match vector.room <= SHOWN_BYTES {
                    true => String::from_utf8(text).unwrap().replace('\n', "/"),
                    false => sum_text(text.into_iter().map(u64::from)),
                }
            } else {
                let mut row = row;
                row.resize(vector.room + BEHIND, MARK);
                match vector.room <= SHOWN_NUMBERS {
                    true => format!("row{}", row_text(&row)),
                    false => sum_text(row.into_iter()),
                }
            };
            let expected = format!("made {} {shown}", vector.needed());
            assert_eq!(vector.answer, expected, "{:?}", vector.ask);
        }
    }

    /// A way in which vectors may be.
    type Shape = (&'static str, fn(&Written) -> bool);

    /// Shapes that there are of both kinds, of each some at least.
    const SHAPES: [Shape; 27] = [
        ("4,096 stages", |v| {
            v.made() && v.k() == 12 && v.ask.limit == 1 && v.stages() == 4_096
        }),
        ("limit 1", |v| v.made() && v.ask.limit == 1),
        ("limit 4,096", |v| v.made() && v.ask.limit == 4_096),
        ("limit 0", |v| v.refused(2) && v.ask.limit == 0),
        ("limit 4,097", |v| v.refused(2) && v.ask.limit == 4_097),
        ("capacity 1", |v| v.made() && v.ask.capacity == 1),
        ("capacity 2,048", |v| v.made() && v.ask.capacity == 2_048),
        ("capacity 0", |v| v.refused(2) && v.ask.capacity == 0),
        ("capacity 2,049", |v| {
            v.refused(2) && v.ask.capacity == 2_049
        }),
        ("capacity just met", |v| {
            v.made() && v.stages() > 1 && v.ask.capacity == v.most()
        }),
        ("capacity just missed", |v| {
            v.refused(14) && v.stages() > 1 && v.ask.capacity + 1 == v.most()
        }),
        (WAYS[0].0, |v| v.one_crowded(WAYS[0].1)),
        (WAYS[1].0, |v| v.one_crowded(WAYS[1].1)),
        (WAYS[2].0, |v| v.one_crowded(WAYS[2].1)),
        ("equal tables", |v| v.made() && v.churn() == Some(0)),
        ("equal tables of unlike lines", |v| {
            v.made() && v.churn() == Some(0) && v.ask.old != v.ask.new
        }),
        ("room just met", |v| v.made() && v.needed() == v.room),
        ("room just missed", |v| {
            v.refused(7) && v.needed() == v.room + 1
        }),
        ("room of more than is needed", |v| {
            v.made() && v.needed() < v.room
        }),
        ("no room", |v| v.refused(7) && v.room == 0),
        ("k 1", |v| v.made() && v.k() == 1 && v.churn() > Some(0)),
        ("a service above 1 among several", |v| {
            let services = |table: &Table| {
                let [first, last] = [table.lines.first(), table.lines.last()];
                first.map(|line| line.service) < last.map(|line| line.service)
            };
            let [old, new] = v
                .tables
                .each_ref()
                .map(|table| table.as_ref().is_some_and(services));
            v.made() && v.ask.service > 1 && old && new
        }),
        ("id 9999", |v| {
            let highest = |line: &crate::table::RuleLine| {
                u64::from(line.service) == v.ask.service && line.rule.backend == 9_999
            };
            let new = v.tables[1].as_ref();
            v.made() && new.is_some_and(|table| table.lines.iter().any(highest))
        }),
        ("the whole churn is the limit", |v| {
            v.made() && v.churn() > Some(1) && v.churn() == Some(v.ask.limit)
        }),
        ("the whole churn is one above the limit", |v| {
            v.made() && v.churn() == Some(v.ask.limit + 1)
        }),
        ("two backends that end in the same byte", |v| {
            let text = |text: &[u8]| String::from_utf8_lossy(text).into_owned();
            let (old, new) = (text(&v.ask.old), text(&v.ask.new));
            v.made() && old.contains(" 1\n") && new.contains(" 257\n")
        }),
        ("more than 300 lines", |v| v.made() && v.most() > 300),
    ];

    /// Shapes of lists alone.
    const LISTED: [Shape; 7] = [
        ("number 0", |v| v.refused(2) && v.ask.number == 0),
        ("the first of three", |v| {
            v.made() && v.ask.number == 1 && v.stages() > 2
        }),
        ("one between", |v| {
            v.made() && v.ask.number > 1 && v.ask.number < v.stages()
        }),
        ("the last of three", |v| {
            v.made() && v.ask.number == v.stages() && v.stages() > 2
        }),
        ("one behind the last", |v| {
            v.refused(2) && v.stages() > 0 && v.ask.number == v.stages() + 1
        }),
        ("a stage that has room where another is crowded", |v| {
            let own = v.lines.get((v.ask.number as usize).wrapping_sub(1));
            v.refused(14) && own.is_some_and(|&lines| lines <= v.ask.capacity)
        }),
        ("a text of more than 4,096 bytes", |v| {
            v.made() && v.needed() > 4_096
        }),
    ];

    #[test]
    fn vectors_of_every_shape() {
        let all = written();
        assert!((500..=700).contains(&all.len()), "{}", all.len());
        for kind in ["P", "L"] {
            let of_kind: Vec<&Written> = all.iter().filter(|vector| vector.kind == kind).collect();
            let shapes = SHAPES
                .iter()
                .chain(if kind == "L" { &LISTED[..] } else { &[] });
            for (name, is) in shapes {
                assert!(of_kind.iter().any(|vector| is(vector)), "{kind}: {name}");
            }
            for k in 1..=12 {
                let made = |vector: &&&Written| vector.made() && vector.k() == k;
                assert!(of_kind.iter().filter(made).count() > 2, "{kind}: k {k}");
            }
        }
        assert!(all
            .iter()
            .all(|vector| vector.room <= [4_096, 65_536][usize::from(vector.is_list())]));
        let rows = all.iter().filter(|vector| !vector.is_list());
        assert!(rows.into_iter().all(|vector| vector.ask.number == 1));
        let small = all
            .iter()
            .filter(|vector| vector.k() < 6 && vector.ask.old.len() < 200);
        assert!(2 * small.count() > all.len());
    }

    /// Each pair of neighbours in the order of refusals is wrong at once, with nothing
    /// wrong that is found before it.
    #[test]
    fn vectors_of_two_faults() {
        let all = written();
        for kind in ["P", "L"] {
            let order = FAULTS
                .into_iter()
                .filter(|&fault| kind == "L" || fault != Fault::Number);
            let order: Vec<Fault> = order.collect();
            for (place, pair) in order.windows(2).enumerate() {
                let found = all.iter().any(|vector| {
                    let sound = |&fault: &Fault| !vector.has(fault);
                    vector.kind == kind
                        && order[..place].iter().all(sound)
                        && pair.iter().all(|&fault| vector.has(fault))
                });
                assert!(found, "{kind}: {pair:?}");
            }
        }
    }

    #[test]
    fn vectors_tell_each_refusal_of_each_sheet() {
        let all = written();
        for kind in ["P", "L"] {
            for (number, sheets) in [
                (1, &[1, 2][..]),
                (2, &[0, 1, 2]),
                (4, &[1, 2]),
                (5, &[1, 2]),
                (7, &[0]),
                (8, &[1, 2]),
                (9, &[1, 2]),
                (10, &[1, 2]),
                (11, &[1, 2]),
                (12, &[0]),
                (14, &[0]),
            ] {
                for which in 0..3 {
                    let is = |vector: &Written| {
                        let mut words = vector.answer.split(' ').map(str::parse::<u64>);
                        let words: Vec<u64> = words.by_ref().skip(1).take(3).flatten().collect();
                        vector.kind == kind
                            && !vector.made()
                            && (words[0], words[2]) == (number, which)
                    };
                    let found = all.iter().any(is);
                    assert_eq!(found, sheets.contains(&which), "{kind} {number} {which}");
                }
            }
        }
    }

    #[test]
    fn the_one_stage_of_the_most_lines() {
        assert_eq!(only(&[]), None);
        assert_eq!(only(&[1, 2]), None);
        assert_eq!(only(&[1, 2, 2]), None);
        assert_eq!(only(&[2, 3, 1]), Some(1));
        assert_eq!(only(&[2, 3, 4]), Some(2));
    }
}
