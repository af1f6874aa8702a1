//! The Rust twin: document 01, and requests 01 and 03 to 07 of document 02,
//! written once more, to be tried against.

pub mod calls;
pub mod commands;
pub mod count;
pub mod expansion;
#[cfg(test)]
mod four_places;
pub mod fraction;
pub mod gauges;
pub mod handed;
pub mod holdings;
pub mod ledger;
pub mod limits;
pub mod lines;
pub mod lists;
pub mod numerals;
pub mod packing;
pub mod percentage_sheet;
#[cfg(test)]
mod plain;
#[cfg(test)]
mod plain_stages;
pub mod plan;
pub mod random;
pub mod refusal;
pub mod rows;
pub mod rule_sheet;
pub mod services;
pub mod sheet_lines;
pub mod stages;
pub mod start;
pub mod suffix;
pub mod table;
pub mod update;
pub mod vectors;
