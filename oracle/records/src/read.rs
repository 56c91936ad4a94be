//! The reader: takes the fields in their order and refuses a record of which one is cut short.

use crate::LONGEST;
use crate::shot::{Cell, Sample, Shot};

/// A record that is not refused.
#[derive(Clone, Debug)]
pub struct Read {
    pub shot: Shot,
    /// Where each cell starts in the record.
    pub starts: Vec<usize>,
}

/// Nothing for a record that check 21 refuses.
pub fn read(record: &[u8]) -> Option<Read> {
    if record.len() > LONGEST {
        return None;
    }
    let mut cursor = Cursor { record, at: 0 };
    let read = whole(&mut cursor)?;
    (cursor.at == record.len()).then_some(read)
}

/// The bytes of a record that are not yet read.
struct Cursor<'a> {
    record: &'a [u8],
    at: usize,
}

impl<'a> Cursor<'a> {
    fn take(&mut self, count: usize) -> Option<&'a [u8]> {
        let taken = self.record.get(self.at..)?.get(..count)?;
        self.at += count;
        Some(taken)
    }

    fn array<const N: usize>(&mut self) -> Option<[u8; N]> {
        self.take(N)?.try_into().ok()
    }

    /// The bits of a float.
    fn float(&mut self) -> Option<u32> {
        self.array().map(u32::from_le_bytes)
    }

    fn count(&mut self) -> Option<usize> {
        self.array().map(|bytes| u16::from_le_bytes(bytes).into())
    }

    fn coordinate(&mut self) -> Option<i16> {
        self.array().map(i16::from_le_bytes)
    }
}

fn whole(cursor: &mut Cursor) -> Option<Read> {
    let mut shot = Shot::default();
    [shot.map] = cursor.array()?;
    if shot.map > 0b11_1111 {
        return None;
    }
    let map = shot.map;
    let given = |bit: u8| map >> bit & 1 == 1;
    let settings = [
        &mut shot.minimum_margin,
        &mut shot.border_threshold,
        &mut shot.px_per_square,
    ];
    for (bit, setting) in (0..).zip(settings) {
        if given(bit) {
            *setting = cursor.float()?;
        }
    }
    if given(3) {
        for entry in &mut shot.table {
            *entry = cursor.float()?;
        }
    }
    if given(5) {
        shot.least_weight = cursor.float()?;
    }
    [shot.rows, shot.cols, shot.bits, shot.border] = cursor.array()?;
    shot.cell_size = cursor.float()?;
    shot.marker_size_rel = cursor.float()?;
    for _ in 0..cursor.count()? {
        shot.codes.push(u64::from_le_bytes(cursor.array()?));
    }
    let cell_count = cursor.count()?;
    let side = u32::from(shot.bits) + 2 * u32::from(shot.border);
    let mut starts = Vec::new();
    for is_sampled in cell_map(cursor, cell_count)? {
        starts.push(cursor.at);
        let cell = cell(cursor, is_sampled, side.pow(2) as usize)?;
        shot.cells.push(cell);
    }
    Some(Read { shot, starts })
}

/// Whether each cell is sampled.
fn cell_map(cursor: &mut Cursor, count: usize) -> Option<Vec<bool>> {
    let map = cursor.take(count.div_ceil(8))?;
    let bit = |place: usize| map[place / 8] & 1 << (place % 8) != 0;
    let mut spare = count..8 * map.len();
    (!spare.any(bit)).then(|| (0..count).map(bit).collect())
}

fn cell(cursor: &mut Cursor, is_sampled: bool, greys: usize) -> Option<Cell> {
    let [u, v] = [cursor.coordinate()?, cursor.coordinate()?];
    let mut sample = None;
    if is_sampled {
        let fraction = cursor.float()?;
        let [threshold] = cursor.array()?;
        let grid = cursor.take(greys)?.to_vec();
        sample = Some(Sample {
            fraction,
            threshold,
            grid,
        });
    }
    Some(Cell { u, v, sample })
}
