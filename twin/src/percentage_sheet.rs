//! The reader of the percentage sheet (document 01, "Percentage sheet", and
//! request 04).

use crate::expansion::check_sum;
use crate::limits::{MOST_BACKENDS, MOST_BITS, MOST_CAPACITY, MOST_ID, MOST_SERVICES, MOST_VOLUME};
use crate::lines::fields;
use crate::numerals::{read_number, read_percentage};
use crate::packing::{check_size, Order, Service};
use crate::refusal::{Reason, Refusal};
use crate::sheet_lines::SheetLines;

/// Reads a percentage sheet.
pub fn read(text: &[u8]) -> Result<Order, Refusal> {
    let mut lines = SheetLines::open(text)?;
    let mut order = read_head(&mut lines)?;
    while !lines.at_end() {
        let line = lines.take()?;
        let service = read_service(line, order.services.len(), &lines)?;
        order.services.push(service);
    }
    check_size(&order).map_err(|reason| reason.at(1))?;
    Ok(order)
}

/// Line 1: `SHEET k tolerance C`.
fn read_head(lines: &mut SheetLines) -> Result<Order, Refusal> {
    let [k, tolerance, capacity] = lines.take_head("SHEET")?;
    Ok(Order {
        k: lines.field(read_number(k, 1, MOST_BITS))?,
        tolerance: lines.field(read_percentage(tolerance))?,
        capacity: lines.field(read_number(capacity, 1, MOST_CAPACITY))?,
        services: Vec::new(),
    })
}

/// A further line: `SERVICE volume id1:p1 .. idM:pM`.
fn read_service(line: &[u8], before: usize, lines: &SheetLines) -> Result<Service, Refusal> {
    let mut parts = fields(line);
    if parts.next() != Some(b"SERVICE") {
        return Err(lines.refusal(Reason::Malformed));
    }
    if before as u64 == MOST_SERVICES {
        return Err(lines.refusal(Reason::TooMany));
    }
    let count = parts.clone().count() as u64;
    if count < 2 {
        return Err(lines.refusal(Reason::Malformed));
    }
    if count > 1 + MOST_BACKENDS {
        return Err(lines.refusal(Reason::TooMany));
    }
    let volume = parts
        .next()
        .and_then(|part| read_number(part, 0, MOST_VOLUME));
    let volume = lines.field(volume)?;
    let mut ids = Vec::with_capacity(count as usize - 1);
    let mut weights = Vec::with_capacity(count as usize - 1);
    let mut before = 0;
    for part in parts {
        let (id, weight) = lines.field(read_backend(part, before))?;
        ids.push(id);
        weights.push(weight);
        before = id;
    }
    check_sum(&weights).map_err(|reason| lines.refusal(reason))?;
    Ok(Service {
        volume,
        ids,
        weights,
    })
}

/// A backend, `id:percentage`, whose id is above the one before it and so not 0:
/// its first digit isn't 0 either.
fn read_backend(part: &[u8], before: u64) -> Option<(u64, u64)> {
    let mut id = 0;
    for (at, &byte) in part.iter().enumerate() {
        match byte {
            b'0' if id == 0 => return None,
            b'0'..=b'9' if id <= MOST_ID => id = 10 * id + u64::from(byte - b'0'),
            b':' if before < id && id <= MOST_ID => {
                return Some((id, read_percentage(&part[at + 1..])?))
            }
            _ => return None,
        }
    }
    None
}

#[cfg(test)]
mod tests {
    use super::*;
    use crate::numerals::WHOLE;
    use crate::packing::Service;

    fn refused(text: &str) -> (u8, usize) {
        let refusal = read(text.as_bytes()).unwrap_err();
        (refusal.number(), refusal.line)
    }

    #[test]
    fn a_sheet_is_read() {
        let text = b"SHEET 5 2.50 5\nSERVICE 55 1:16.6667 20:33.3333 9999:50\nSERVICE 0 7:100\n";
        let order = read(text).unwrap();
        assert_eq!((order.k, order.capacity), (5, 5));
        assert_eq!(order.tolerance, 2_500_000);
        let first = Service {
            volume: 55,
            ids: vec![1, 20, 9_999],
            weights: vec![16_666_700, 33_333_300, WHOLE / 2],
        };
        assert_eq!(order.services[0], first);
        assert_eq!(order.services.len(), 2);
        assert_eq!(order.services[1].ids, [7]);
    }

    /// However many zeros the percentages end in.
    #[test]
    fn six_decimals_are_read() {
        for parts in [
            "1:18.4 2:81.6",
            "1:18.40000 2:81.600000",
            "1:18.400000 2:81.60",
        ] {
            let text = format!("SHEET 5 18.40000 5\nSERVICE 1 {parts}\n");
            let order = read(text.as_bytes()).unwrap();
            assert_eq!(order.tolerance, 18_400_000);
            assert_eq!(order.services[0].weights, [18_400_000, 81_600_000]);
        }
        let text =
            b"SHEET 5 0.000001 5\nSERVICE 1 1:0.000001 2:99.999999\nSERVICE 1 1:100.000000\n";
        let order = read(text).unwrap();
        assert_eq!(order.tolerance, 1);
        assert_eq!(order.services[0].weights, [1, WHOLE - 1]);
        assert_eq!(order.services[1].weights, [WHOLE]);
    }

    #[test]
    fn line_1_is_turned_back() {
        for text in [
            "",
            "SHEET 5 2 5",
            "\n",
            "SHEE 5 2 5\n",
            "SHEET 5 2\n",
            "SHEET 5 2 5 \n",
            " SHEET 5 2 5\n",
        ] {
            assert_eq!(refused(text), (1, 1), "{text:?}");
        }
        for text in [
            "SHEET 0 2 5\n",
            "SHEET 13 2 5\n",
            "SHEET 5 02 5\n",
            "SHEET 5 2 0\n",
            "SHEET 5 2 2049\n",
            "SHEET  2 5\n",
        ] {
            assert_eq!(refused(text), (2, 1), "{text:?}");
        }
        assert_eq!(refused("SHEET 5 2 5\n"), (5, 1));
        assert_eq!(refused(&"9".repeat(65_537)), (11, 0));
        assert_eq!(refused(&"9".repeat(65_536)), (1, 1));
    }

    #[test]
    fn service_lines_are_turned_back() {
        let second = |line: &str| refused(&format!("SHEET 5 2 5\n{line}"));
        for line in [
            "SERVICE 1 1:100",
            "SERVICES 1 1:100\n",
            "\n",
            "SERVICE\n",
            "SERVICE 1\n",
            "service 1 1:100\n",
        ] {
            assert_eq!(second(line), (1, 2), "{line:?}");
        }
        for line in [
            "SERVICE 1 \n",
            "SERVICE  1:100\n",
            "SERVICE 10001 1:100\n",
            "SERVICE 1 1:100 \n",
            "SERVICE 1 1:100\r\n",
        ] {
            assert_eq!(second(line), (2, 2), "{line:?}");
        }
        for part in [
            "18.4.2",
            "100.0001",
            "100.000001",
            "018.4",
            "18.",
            ".4",
            "18.4000000",
        ] {
            assert_eq!(second(&format!("SERVICE 1 1:{part}\n")), (2, 2));
            assert_eq!(refused(&format!("SHEET 5 {part} 5\n")), (2, 1));
        }
        assert_eq!(second("SERVICE 1 1:100.0000 2:0.0001\n"), (3, 2));
        assert_eq!(second("SERVICE 1 1:100.000000 2:0.000001\n"), (3, 2));
        for part in ["18.40000", "81.5999", "81.599999", "81.600001", "81.6001"] {
            assert_eq!(second(&format!("SERVICE 1 1:18.4 2:{part}\n")), (3, 2));
        }
        assert_eq!(second(&format!("SERVICE x{}\n", " 1:1".repeat(33))), (4, 2));
        assert_eq!(second(&format!("SERVICE x{}\n", " 1:1".repeat(32))), (2, 2));
    }

    /// Backends that are refused for their ids or their form.
    const BAD_BACKENDS: [&str; 29] = [
        "100",
        "50 50",
        "0:100",
        "10000:100",
        "01:100",
        "0001:100",
        ":100",
        "1:",
        ":",
        "1",
        "1:100:",
        "1::100",
        "1:50:50",
        "+1:100",
        "-1:100",
        "1.0:100",
        "1;100",
        "x:100",
        "1:50 1:50",
        "2:50 1:50",
        "2:50 2:40",
        "1:50 50",
        "50 2:50",
        "1:50 2:40 1:10",
        "9999:50 10000:50",
        "1:50 0:50",
        "65537:100",
        "18446744073709551617:100",
        "1: 100",
    ];

    #[test]
    fn ids_are_turned_back() {
        let second = |parts: &str| refused(&format!("SHEET 5 2 5\nSERVICE 1 {parts}\n"));
        for parts in BAD_BACKENDS {
            assert_eq!(second(parts), (2, 2), "{parts:?}");
        }
        for parts in ["1:50 9999:49", "3:1", "1:0 2:0"] {
            assert_eq!(second(parts), (3, 2), "{parts:?}");
        }
        assert_eq!(second("2:50 1:49"), (2, 2));
        assert_eq!(second(&"1:1 ".repeat(33)[..131]), (4, 2));
        assert!(read(b"SHEET 5 2 5\nSERVICE 1 1:0 5:0 9999:100\n").is_ok());
    }

    #[test]
    fn capacity_and_services() {
        let sheet = |capacity: u64, services: usize, last: &str| {
            let lines = "SERVICE 1 1:100\n".repeat(services);
            format!("SHEET 1 0 {capacity}\n{lines}{last}")
        };
        assert!(read(sheet(64, 64, "").as_bytes()).is_ok());
        assert_eq!(refused(&sheet(63, 64, "")), (6, 1));
        assert_eq!(refused(&sheet(64, 64, "SERVICE\n")), (4, 66));
        assert_eq!(refused(&sheet(64, 64, "SERVICE")), (1, 66));
        assert_eq!(refused(&sheet(64, 64, "X\n")), (1, 66));
    }
}
