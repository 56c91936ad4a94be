//! The writer: any shot to bytes, also one that is too long or whose map byte has spare bits. The legacy flag is in the map
//! byte alone.

use crate::shot::{Shot, settings};

/// A record, and where the parts of it are whose damage shows something.
#[derive(Clone, Debug)]
pub struct Written {
    pub bytes: Vec<u8>,
    pub rows_at: usize,
    pub code_count_at: usize,
    pub cell_count_at: usize,
    pub cell_map_at: usize,
}

/// Counts are cut to 16 bits, as their fields are; no shot that fits into a record has more.
pub fn write(shot: &Shot) -> Written {
    let mut bytes = vec![shot.map];
    let given = [
        (settings::MINIMUM_MARGIN, &[shot.minimum_margin][..]),
        (settings::BORDER_THRESHOLD, &[shot.border_threshold]),
        (settings::PX_PER_SQUARE, &[shot.px_per_square]),
        (settings::TABLE, &shot.table),
        (settings::LEAST_WEIGHT, &[shot.least_weight]),
    ];
    for (bit, floats) in given {
        if shot.map & bit != 0 {
            bytes.extend(floats.iter().flat_map(|float| float.to_le_bytes()));
        }
    }
    let rows_at = bytes.len();
    bytes.extend([shot.rows, shot.cols, shot.bits, shot.border]);
    bytes.extend(shot.cell_size.to_le_bytes());
    bytes.extend(shot.marker_size_rel.to_le_bytes());

    let code_count_at = bytes.len();
    bytes.extend((shot.codes.len() as u16).to_le_bytes());
    bytes.extend(shot.codes.iter().flat_map(|code| code.to_le_bytes()));

    let cell_count_at = bytes.len();
    bytes.extend((shot.cells.len() as u16).to_le_bytes());
    let cell_map_at = bytes.len();
    bytes.extend(shot.cells.chunks(8).map(|eight| {
        let sampled = eight.iter().rev().map(|cell| cell.sample.is_some());
        sampled.fold(0, |byte, is_sampled| byte << 1 | u8::from(is_sampled))
    }));
    for cell in &shot.cells {
        bytes.extend(cell.u.to_le_bytes());
        bytes.extend(cell.v.to_le_bytes());
        if let Some(sample) = &cell.sample {
            bytes.extend(sample.fraction.to_le_bytes());
            bytes.push(sample.threshold);
            bytes.extend(&sample.grid);
        }
    }
    Written {
        bytes,
        rows_at,
        code_count_at,
        cell_count_at,
        cell_map_at,
    }
}
