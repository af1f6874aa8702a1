//! Vectors for the sheets: readers, writers, the one call, lookup,
//! churn and the count.

use super::records::{Record, Records};
use super::{counts, percentage_sheets, plans, rule_sheets, writes};
use crate::calls::{churn, count_share, lookup, split, split_into};
use crate::rule_sheet::{read, text_of};

/// What the twin says to one record; nothing if the record is of no kind.
pub fn answer(record: &Record) -> Option<String> {
    let text = record.payload;
    match (record.kind, record.numbers.as_slice()) {
        ("R", &[]) => Some(shown(
            split(text).map(|packing| slashed(&text_of(&packing.table))),
        )),
        ("B", &[room]) => {
            let mut buffer = vec![0; usize::try_from(room).ok()?];
            let end = split_into(text, &mut buffer).map(|(_, end)| end);
            Some(shown(end.map(|end| slashed(&buffer[..end]))))
        }
        ("U", &[]) => Some(shown(read(text).map(|_| "ok"))),
        ("L", &[service, address]) => {
            let backend = lookup(text, service, address);
            Some(shown(backend.map(|backend| format!("backend {backend}"))))
        }
        ("H", &[service, length]) => {
            let (first, second) = text.split_at_checked(usize::try_from(length).ok()?)?;
            let count = churn(first, second, service);
            Some(shown(count.map(|count| format!("churn {count}"))))
        }
        ("C", &[service, backend]) => {
            let share = count_share(text, service, backend);
            Some(shown(share.map(|(k, count)| format!("share {k} {count}"))))
        }
        ("P", &[figures, table]) => plans::answer(text, figures, table),
        ("W", &[k, total, room]) => writes::answer(k, total, room, text),
        _ => None,
    }
}

/// The answer, or the refusal as text.
pub(super) fn shown<T: ToString, E: ToString>(answer: Result<T, E>) -> String {
    answer.map_or_else(|refusal| refusal.to_string(), |text| text.to_string())
}

/// A text on one line, each LF shown as `/`.
fn slashed(text: &[u8]) -> String {
    String::from_utf8_lossy(text).replace('\n', "/")
}

/// Adds all of them.
pub fn add_all(records: &mut Records) {
    percentage_sheets::add_all(records);
    rule_sheets::add_all(records);
    counts::add_all(records);
    plans::add_all(records);
    writes::add_all(records);
}
