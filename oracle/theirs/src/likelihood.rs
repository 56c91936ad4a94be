//! The likelihood table: what one bit of a cell adds to a score. `score_matrix.rs` has no such table; it computes the values
//! for each bit anew. What is here by document 01 alone is tested against it.

use calib_targets_core::log_sigmoid;
use cases::cells::Cell;
use std::ops::RangeInclusive;

/// Threshold less grey.
const DIFFERENCES: RangeInclusive<i16> = -255..=255;

pub const TABLE_LENGTH: usize = 511;

/// Slope and floor of the built-in table of this library; they are upstream's defaults.
pub const BUILT_IN: [f32; 2] = [36.0, -6.0];

/// Entry d + 255 is for the difference d: the operations of upstream, in its order.
pub fn likelihood_table([slope, floor]: [f32; 2]) -> [f32; TABLE_LENGTH] {
    let slope_over_255 = slope / 255.0;
    let mut table = [0.0; TABLE_LENGTH];
    for (entry, d) in table.iter_mut().zip(DIFFERENCES) {
        let signed = slope_over_255 * f32::from(d);
        *entry = log_sigmoid(signed).max(floor);
    }
    table
}

/// Check 10, which is added: has the table 511 entries, each from -8 to 0?
pub fn is_table(entries: &[f32]) -> bool {
    entries.len() == TABLE_LENGTH && entries.iter().all(|entry| (-8.0..=0.0).contains(entry))
}

/// What each bit of a cell adds to the score of a code that is already rotated, by the rule of document 01; for a table of
/// any origin.
pub fn entries(table: &[f32; TABLE_LENGTH], cell: &Cell, code: u64) -> impl Iterator<Item = f32> {
    (0..).zip(cell.differences()).map(move |(k, d)| {
        let d = if code >> k & 1 == 1 { d } else { -d };
        table[(d + 255) as usize]
    })
}

/// The sum of the entries, in their order.
pub fn score_by_table(table: &[f32; TABLE_LENGTH], cell: &Cell, code: u64) -> f32 {
    entries(table, cell, code).fold(0.0, |sum, entry| sum + entry)
}
