//! Records that are damaged, and some that only look so.

use crate::shot::{Shot, settings};
use crate::write::{Written, write};
use cases::entries::changed;
use cases::prng::Prng;

/// The record of a shot, damaged in each of the ways below.
pub fn all(prng: &mut Prng, shot: &Shot) -> Vec<Vec<u8>> {
    let written = write(shot);
    [
        upper_bits(&written, shot.cells.len()),
        before_rows(&written),
        map_bytes(&written.bytes),
        counts(&written),
        one_byte_more(&written.bytes).to_vec(),
        prng.many(20, |prng| with_bytes_changed(prng, &written.bytes)),
    ]
    .concat()
}

/// Cut short at every length.
pub fn truncations(record: &[u8]) -> impl Iterator<Item = &[u8]> {
    (0..record.len()).map(|length| &record[..length])
}

/// The record with the legacy flag, as far as it has a map byte.
pub fn marked(mut record: Vec<u8>) -> Vec<u8> {
    if let Some(map) = record.first_mut() {
        *map |= settings::LEGACY;
    }
    record
}

/// Each spare bit of both maps set by itself: those of the map byte, then those of the cell map.
pub fn spare_bits(written: &Written, cells: usize) -> Vec<Vec<u8>> {
    let known = settings::UPPER.len() - settings::SPARE.len();
    upper_bits(written, cells).split_off(known)
}

/// Likewise, with two bits before the others: the legacy flag, which only looks like damage, and the flag of the least weight,
/// whose field is missing from a record that has no such flag.
pub fn upper_bits(written: &Written, cells: usize) -> Vec<Vec<u8>> {
    let last = written.cell_map_at + cells / 8;
    let spare = match cells % 8 {
        0 => 8..8,
        used => used..8,
    };
    let of_map = settings::UPPER.map(|bit| (0, bit)).into_iter();
    let of_cells = spare.map(|place| (last, 1 << place));
    let bits = of_map.chain(of_cells);
    bits.map(|(place, bit)| changed(&written.bytes, |record| record[place] |= bit))
        .collect()
}

/// One to four bytes less before the rows, where the least weight is, as far as there are so many, and four more.
pub fn before_rows(written: &Written) -> Vec<Vec<u8>> {
    let at = written.rows_at;
    let less = (1..=4).filter(|&count| count < at);
    let less = less.map(|count| {
        changed(&written.bytes, |record| {
            record.drain(at - count..at);
        })
    });
    let more = changed(&written.bytes, |record| {
        record.splice(at..at, [0; 4]);
    });
    less.chain([more]).collect()
}

/// Every number in the place of the map byte.
pub fn map_bytes(record: &[u8]) -> Vec<Vec<u8>> {
    let bytes = 0..=u8::MAX;
    bytes
        .map(|map| changed(&record.to_vec(), |record| record[0] = map))
        .collect()
}

/// Both counts: one more, one less, none, the most, and so many more that the bytes of the codes or of unsampled cells
/// are 65,536 more.
pub fn counts(written: &Written) -> Vec<Vec<u8>> {
    let changes: [fn(u16) -> u16; 6] = [
        |count| count.wrapping_add(1),
        |count| count.wrapping_sub(1),
        |_| 0,
        |_| u16::MAX,
        |count| count.wrapping_add(1 << 13),
        |count| count.wrapping_add(1 << 14),
    ];
    let places = [written.code_count_at, written.cell_count_at];
    let changed = places.map(|at| {
        changes.map(|change| {
            changed(&written.bytes, |record| {
                let count = u16::from_le_bytes([record[at], record[at + 1]]);
                record[at..at + 2].copy_from_slice(&change(count).to_le_bytes());
            })
        })
    });
    changed.concat()
}

pub fn one_byte_more(record: &[u8]) -> [Vec<u8>; 2] {
    [0, 255].map(|byte| [record, &[byte]].concat())
}

/// One to three bytes, most often at the start, where the counts are.
pub fn with_bytes_changed(prng: &mut Prng, record: &[u8]) -> Vec<u8> {
    let mut record = record.to_vec();
    let front = record.len().min(40);
    for _ in 0..1 + prng.below(3) {
        let reach = prng.pick(&[front, front, record.len()]);
        let place = prng.place(reach);
        record[place] = prng.byte();
    }
    record
}

/// Bytes of no meaning. Most have a map byte without spare bits, so that the reader gets beyond it.
pub fn random_bytes(prng: &mut Prng) -> Vec<u8> {
    let length = prng.place(120);
    let mut record = prng.many(length, Prng::byte);
    if prng.below(4) != 0 && length > 0 {
        record[0] &= 0b0111;
    }
    // Small counts, so that some are whole.
    for byte in record.iter_mut().skip(13) {
        *byte &= prng.pick(&[0, 0, 1, 255]);
    }
    record
}
