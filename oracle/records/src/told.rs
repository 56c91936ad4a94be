//! What the readers of a record answer: each makes check 21 alone. A place past the last of its kind is absent.

use crate::REFUSED;
use crate::read::Read;
use crate::shot::{Cell, Sample, Shot};
use cases::answer::Answer;
use cases::floats::one_nan;

/// u, v, fraction and threshold.
const BEFORE_THE_GRID: usize = 9;

/// A record as it was read, or none if it is refused.
type Record<'a> = Option<&'a Read>;

fn told<const N: usize>(read: Record, words: impl FnOnce(&Read) -> [u32; N]) -> Answer {
    read.map_or(Answer::refused(REFUSED), |read| {
        Answer::of_words(words(read))
    })
}

pub fn header(read: Record) -> Answer {
    told(read, |Read { shot, .. }| {
        [
            shot.map.into(),
            one_nan(shot.minimum_margin),
            one_nan(shot.border_threshold),
            one_nan(shot.px_per_square),
            shot.rows.into(),
            shot.cols.into(),
            shot.bits.into(),
            shot.border.into(),
            one_nan(shot.cell_size),
            one_nan(shot.marker_size_rel),
            shot.codes.len() as u32,
            shot.cells.len() as u32,
            shot.is_legacy().into(),
            one_nan(shot.least_weight),
        ]
    })
}

pub fn table_entry(read: Record, k: usize) -> Answer {
    told(read, |Read { shot, .. }| {
        let entry = shot.table.get(k);
        entry.map_or([0; 2], |&entry| [1, one_nan(entry)])
    })
}

pub fn code(read: Record, k: usize) -> Answer {
    told(read, |Read { shot, .. }| {
        let code = shot.codes.get(k);
        code.map_or([0; 3], |&code| [1, code as u32, (code >> 32) as u32])
    })
}

/// The last two are 0 for a cell that is not sampled.
pub fn cell(read: Record, k: usize) -> Answer {
    let words = |Cell { u, v, sample }: &Cell| {
        let sample = sample.as_ref();
        [
            1 + u32::from(sample.is_some()),
            i32::from(*u).cast_unsigned(),
            i32::from(*v).cast_unsigned(),
            sample.map_or(0, |sample| one_nan(sample.fraction)),
            sample.map_or(0, |sample| sample.threshold.into()),
        ]
    };
    told(read, |Read { shot, .. }| {
        shot.cells.get(k).map_or([0; 5], words)
    })
}

/// Start and length in the record.
pub fn grid(read: Record, k: usize) -> Answer {
    told(read, |read| {
        let start = read.starts.get(k);
        let sample = sample(&read.shot, k);
        sample.zip(start).map_or([0; 2], |(sample, start)| {
            [start + BEFORE_THE_GRID, sample.grid.len()].map(|place| place as u32)
        })
    })
}

/// The grey levels of a cell; none of one that is not sampled or absent.
pub fn greys(read: Record<'_>, k: usize) -> &[u8] {
    let sample = read.and_then(|read| sample(&read.shot, k));
    sample.map_or(&[], |sample| &sample.grid)
}

fn sample(shot: &Shot, k: usize) -> Option<&Sample> {
    shot.cells.get(k)?.sample.as_ref()
}
