//! The one call with two lent buffers: the figures and the table in numbers.

use crate::calls::split;
use crate::expansion::Ending;
use crate::handed::numbers_of;
use crate::packing::Packing;
use crate::refusal::Refusal;
use std::fmt;

/// Why nothing was planned: a refused sheet, or the buffer that is too short.
#[derive(Clone, Copy, PartialEq, Eq, Debug)]
pub enum PlanRefusal {
    Sheet(Refusal),
    ShortFigures,
    ShortTable,
}

impl fmt::Display for PlanRefusal {
    fn fmt(&self, out: &mut fmt::Formatter) -> fmt::Result {
        match self {
            PlanRefusal::Sheet(refusal) => write!(out, "{refusal}"),
            PlanRefusal::ShortFigures => write!(out, "short figures"),
            PlanRefusal::ShortTable => write!(out, "short table"),
        }
    }
}

/// The figures: for each service its grant, the length of its list and how the
/// list ended.
pub fn figures_of(packing: &Packing) -> Vec<u64> {
    let mut figures = Vec::with_capacity(3 * packing.grants.len());
    for (&grant, list) in packing.grants.iter().zip(&packing.lists) {
        let ending = match list.ending {
            Ending::Within => 0,
            Ending::NoGain => 1,
            Ending::Budget => 2,
        };
        figures.extend([grant as u64, list.rules.len() as u64, ending]);
    }
    figures
}

/// Plans a sheet. Both buffers are written from their start on, or none is; if
/// both are too short, it is the figures that are named.
pub fn plan(sheet: &[u8], figures: &mut [u64], table: &mut [u64]) -> Result<Packing, PlanRefusal> {
    let packing = split(sheet).map_err(PlanRefusal::Sheet)?;
    let (own, numbers) = (figures_of(&packing), numbers_of(&packing.table.lines));
    let figures = figures.get_mut(..own.len());
    let figures = figures.ok_or(PlanRefusal::ShortFigures)?;
    let table = table.get_mut(..numbers.len());
    let table = table.ok_or(PlanRefusal::ShortTable)?;
    figures.copy_from_slice(&own);
    table.copy_from_slice(&numbers);
    Ok(packing)
}

#[cfg(test)]
mod tests {
    use super::*;
    use crate::refusal::Reason;

    const SAMPLE: &[u8] =
        b"SHEET 5 2 5\nSERVICE 55 1:16.6667 2:33.3333 3:50\nSERVICE 45 1:25 2:25 3:50\n";

    /// The answer for buffers of so many 99, and the buffers afterwards.
    fn planned(sheet: &[u8], figures: usize, table: usize) -> (Option<PlanRefusal>, [Vec<u64>; 2]) {
        let mut buffers = [vec![99; figures], vec![99; table]];
        let [figures, table] = &mut buffers;
        let refusal = plan(sheet, figures, table).err();
        (refusal, buffers)
    }

    #[test]
    fn the_sample_fills_both_buffers_from_their_start() {
        let (refusal, [figures, table]) = planned(SAMPLE, 7, 20);
        assert_eq!(refusal, None);
        assert_eq!(figures, [2, 4, 0, 3, 3, 0, 99]);
        let lines = [
            [1, 1, 0, 2],
            [1, 0, 0, 3],
            [2, 2, 0, 2],
            [2, 1, 0, 1],
            [2, 0, 0, 3],
        ];
        assert_eq!(table, lines.concat());
    }

    #[test]
    fn a_short_buffer_is_named_and_nothing_is_written() {
        let malformed = PlanRefusal::Sheet(Reason::Malformed.at(1));
        for (sheet, figures, table, expected) in [
            (SAMPLE, 6, 19, PlanRefusal::ShortTable),
            (SAMPLE, 5, 20, PlanRefusal::ShortFigures),
            (SAMPLE, 0, 0, PlanRefusal::ShortFigures),
            (b"", 0, 0, malformed),
            (b"", 6, 20, malformed),
        ] {
            let (refusal, buffers) = planned(sheet, figures, table);
            assert_eq!(refusal, Some(expected));
            assert!(buffers.concat().iter().all(|&number| number == 99));
        }
    }
}
