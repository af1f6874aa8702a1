//! An order handed over in rows of numbers: the volume of each service, its
//! size (how many backends it has), the ids of all services in one row, and
//! their weights in another.

use crate::limits::{MOST_BACKENDS, MOST_SERVICES};
use crate::packing::{
    check_head, check_numbers, check_size, pack_checked, Order, Packing, Service,
};
use crate::refusal::{Reason, Refusal};

/// The four rows.
#[derive(Clone, Default, PartialEq, Eq, Debug)]
pub struct Rows {
    pub volumes: Vec<u64>,
    pub sizes: Vec<u64>,
    pub ids: Vec<u64>,
    pub weights: Vec<u64>,
}

/// The rows of an order's services.
pub fn rows_of(services: &[Service]) -> Rows {
    let mut rows = Rows::default();
    for service in services {
        rows.volumes.push(service.volume);
        rows.sizes.push(service.weights.len() as u64);
        rows.ids.extend(&service.ids);
        rows.weights.extend(&service.weights);
    }
    rows
}

/// The packing of rows, which are checked as the percentage sheet would be that
/// holds their numbers.
pub fn pack_rows(k: u64, tolerance: u64, capacity: u64, rows: &Rows) -> Result<Packing, Refusal> {
    let mut order = Order {
        k,
        tolerance,
        capacity,
        services: Vec::new(),
    };
    fill(&mut order, rows).map_err(|reason| reason.at(0))?;
    Ok(pack_checked(&order))
}

/// Adds the services of the rows: line 1 is checked, then service by service,
/// then that nothing is left over, and what every sheet checks after its lines.
fn fill(order: &mut Order, rows: &Rows) -> Result<(), Reason> {
    check_head(order)?;
    let mut ids = rows.ids.as_slice();
    let mut weights = rows.weights.as_slice();
    for index in 0..rows.volumes.len().max(rows.sizes.len()) {
        let (volume, size) = measures(index, rows)?;
        let service = Service {
            volume,
            ids: take(&mut ids, size)?,
            weights: take(&mut weights, size)?,
        };
        check_numbers(&service)?;
        order.services.push(service);
    }
    if !ids.is_empty() || !weights.is_empty() {
        return Err(Reason::Malformed);
    }
    check_size(order)
}

/// The volume and the size of a service: the 65th service, then the field count,
/// where a 33rd backend is one too many.
fn measures(index: usize, rows: &Rows) -> Result<(u64, usize), Reason> {
    if index as u64 >= MOST_SERVICES {
        return Err(Reason::TooMany);
    }
    let volume = *rows.volumes.get(index).ok_or(Reason::Malformed)?;
    match *rows.sizes.get(index).ok_or(Reason::Malformed)? {
        0 => Err(Reason::Malformed),
        size if size > MOST_BACKENDS => Err(Reason::TooMany),
        size => Ok((volume, size as usize)),
    }
}

/// Takes the numbers of a service off their row.
fn take(row: &mut &[u64], size: usize) -> Result<Vec<u64>, Reason> {
    let (own, rest) = row.split_at_checked(size).ok_or(Reason::Malformed)?;
    *row = rest;
    Ok(own.to_vec())
}

#[cfg(test)]
mod tests {
    use super::*;
    use crate::numerals::WHOLE;
    use crate::packing::pack;
    use crate::random::Random;
    use crate::vectors::shapes::{self, first_ids, order, OrderShape};

    #[test]
    fn rows_are_packed_as_their_order_is() {
        let mut random = Random::new(31);
        for turn in 0..400 {
            let shape = OrderShape {
                services: random.within(1, 8),
                backends: 8,
                bits: 12,
            };
            let mut order = order(&mut random, &shape);
            if turn % 2 == 0 {
                let at = random.below(shape.services) as usize;
                let service = &mut order.services[at];
                match random.below(6) {
                    0 => service.volume = random.any_size(),
                    1 => service.weights[0] = random.any_size(),
                    2 => *service = shapes::service(1, &vec![0; random.below(40) as usize]),
                    3 => service.ids[0] = random.any_size(),
                    4 => order.capacity = random.below(9),
                    _ => order.services.clear(),
                }
            }
            let rows = rows_of(&order.services);
            let packing = pack_rows(order.k, order.tolerance, order.capacity, &rows);
            assert_eq!(packing, pack(&order));
        }
    }

    /// The number of the refusal, or 0.
    fn packed(volumes: &[u64], sizes: &[u64], ids: &[u64], weights: &[u64]) -> u8 {
        let rows = Rows {
            volumes: volumes.to_vec(),
            sizes: sizes.to_vec(),
            ids: ids.to_vec(),
            weights: weights.to_vec(),
        };
        pack_rows(5, 0, 64, &rows).map_or_else(Refusal::number, |_| 0)
    }

    /// With as many ids as weights, which begin at 1 again with each size.
    fn number(volumes: &[u64], sizes: &[u64], weights: &[u64]) -> u8 {
        let ids = sizes.iter().flat_map(|&size| 1..=size).chain(1..);
        let ids: Vec<u64> = ids.take(weights.len()).collect();
        packed(volumes, sizes, &ids, weights)
    }

    #[test]
    fn ids_that_do_not_fit_their_sizes() {
        let half = [WHOLE / 2; 2];
        for (ids, expected) in [
            (&[1, 2][..], 0),
            (&[9_998, 9_999], 0),
            (&[1], 1),
            (&[], 1),
            (&[1, 2, 3], 1),
            (&[2, 1], 2),
            (&[2, 1, 3], 2),
            (&[0, 1], 2),
            (&[1, 10_000], 2),
        ] {
            assert_eq!(packed(&[1], &[2], ids, &half), expected, "{ids:?}");
        }
        assert_eq!(packed(&[10_001], &[2], &[1], &half), 1);
        assert_eq!(packed(&[10_001], &[2], &[2, 1], &[0; 2]), 2);
        assert_eq!(packed(&[1], &[2], &[2, 1], &[0; 2]), 2);
        assert_eq!(packed(&[1], &[33], &first_ids(2), &half), 4);
        assert_eq!(packed(&[1, 1], &[1, 1], &[7, 3], &[WHOLE; 2]), 0);
        assert_eq!(packed(&[1, 1], &[1, 1], &[7, 3, 9], &[WHOLE; 2]), 1);
        assert_eq!(packed(&[], &[], &[1], &[]), 1);
    }

    #[test]
    fn rows_that_do_not_fit_each_other() {
        assert_eq!(number(&[1, 1], &[1, 2], &[WHOLE, 1, WHOLE - 1]), 0);
        assert_eq!(number(&[], &[], &[]), 5);
        assert_eq!(number(&[], &[], &[WHOLE]), 1);
        assert_eq!(number(&[1], &[], &[WHOLE]), 1);
        assert_eq!(number(&[], &[1], &[WHOLE]), 1);
        assert_eq!(number(&[1], &[2], &[WHOLE]), 1);
        assert_eq!(number(&[1], &[1], &[WHOLE, 0]), 1);
        assert_eq!(number(&[1], &[0], &[WHOLE]), 1);
        assert_eq!(number(&[1], &[u64::MAX], &[WHOLE]), 4);
    }

    #[test]
    fn refusals_in_the_order_of_the_sheet() {
        assert_eq!(number(&[1], &[40], &[0; 35]), 4);
        assert_eq!(number(&[10_001], &[32], &[0; 31]), 1);
        assert_eq!(number(&[10_001, 1], &[1], &[WHOLE]), 2);
        assert_eq!(number(&[10_000, 1], &[1], &[WHOLE]), 1);
        assert_eq!(number(&[1, 1], &[1, 33], &[WHOLE - 1]), 3);
        assert_eq!(number(&[1, 1], &[1, 33], &[WHOLE]), 4);
        assert_eq!(number(&[1], &[1], &[WHOLE - 1, 1]), 3);
        let ones = [1; 65];
        assert_eq!(number(&ones, &ones, &[WHOLE; 66]), 4);
        assert_eq!(number(&ones[..64], &ones, &[WHOLE; 64]), 4);
        assert_eq!(number(&ones[..64], &ones[..64], &[WHOLE; 65]), 1);
        assert_eq!(number(&ones, &ones[..63], &[WHOLE; 65]), 1);
    }
}
