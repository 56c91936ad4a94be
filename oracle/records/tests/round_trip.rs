//! The reader reads what the writer writes, and refuses what is damaged.

use cases::prng::Prng;
use records::damage::{spare_bits, truncations};
use records::{Shape, Shot, read, settings, told, write};

fn shots() -> Vec<Shot> {
    let mut prng = Prng::new(31);
    let mut shots = vec![Shot::default()];
    for map in 0..64 {
        for sides in [[0, 0], [1, 1], [2, 1], [9, 0], [4, 5]] {
            for cells in [0, 1, 7, 8, 9, 16, 40] {
                let shape = Shape::new(map, sides, [cells / 3, cells], prng.below(5));
                shots.push(shape.shot(&mut prng));
            }
        }
    }
    shots
}

#[test]
fn what_is_written_is_read() {
    for shot in shots() {
        let written = write(&shot);
        let read = read(&written.bytes).expect("a good record");
        assert_eq!(read.shot, shot);
        for (start, cell) in read.starts.iter().zip(&shot.cells) {
            let u_and_v = [cell.u.to_le_bytes(), cell.v.to_le_bytes()].concat();
            assert_eq!(written.bytes[*start..][..4], u_and_v);
        }
    }
}

#[test]
fn what_is_damaged_is_refused() {
    for shot in shots() {
        let written = write(&shot);
        for damaged in spare_bits(&written, shot.cells.len()) {
            assert!(read(&damaged).is_none());
        }
        assert!(read(&[&written.bytes[..], &[0]].concat()).is_none());
        if written.bytes.len() < 300 {
            assert!(truncations(&written.bytes).all(|cut| read(cut).is_none()));
        }
    }
}

/// The legacy flag adds no field and changes no other: it is the 13th word of the header.
#[test]
fn the_mark_of_a_legacy_board() {
    for shot in shots() {
        let [unmarked, marked] =
            [shot.map & !settings::LEGACY, shot.map | settings::LEGACY].map(|map| Shot {
                map,
                ..shot.clone()
            });
        let records = [&unmarked, &marked].map(|shot| write(shot).bytes);
        assert_eq!(records[0][1..], records[1][1..]);
        assert_eq!(records[1][0], records[0][0] + 16);
        let headers = records.map(|record| {
            let header = told::header(read(&record).as_ref());
            assert_eq!((header.number, header.words.len()), (0, 14));
            header.words
        });
        assert_eq!(headers[0][1..12], headers[1][1..12]);
        assert_eq!(headers[0][13], headers[1][13]);
        assert_eq!(headers.map(|words| words[12]), [0, 1]);
    }
}

/// The least weight adds four bytes just before the rows, after the table where there is one, and is the last word of the
/// header; without it that word is 0.
#[test]
fn the_least_weight() {
    for shot in shots() {
        let mut with = shot.clone();
        with.set_least_weight(0x3E99_999A);
        let without = Shot {
            map: with.map & !settings::LEAST_WEIGHT,
            least_weight: 0,
            ..with.clone()
        };
        let [old, new] = [&without, &with].map(|shot| write(shot).bytes);
        let floats = (0..4).filter(|bit| with.map >> bit & 1 == 1);
        let lengths = floats.map(|bit| if bit == 3 { 2044 } else { 4 });
        let at = 1 + lengths.sum::<usize>();
        assert_eq!(new[0], old[0] + 32);
        assert_eq!(new[1..at], old[1..at]);
        assert_eq!(new[at..at + 4], [0x9A, 0x99, 0x99, 0x3E]);
        assert_eq!(new[at + 4..], old[at..]);
        let words = [&old, &new].map(|record| {
            let header = told::header(read(record).as_ref());
            header.words[13]
        });
        assert_eq!(words, [0, 0x3E99_999A]);
    }
}

/// The flag without the field and the field without the flag, of the record of document 01.
#[test]
fn the_least_weight_and_its_flag() {
    let mut shot = Shot::of_document_01();
    let old = write(&shot).bytes;
    shot.set_least_weight(0);
    let new = write(&shot).bytes;
    assert_eq!(read(&new).map(|read| read.shot), Some(shot));
    for (map, rest) in [(40, &old[1..]), (8, &new[1..])] {
        assert!(read(&[&[map], rest].concat()).is_none());
    }
}

/// The record that document 01 gives for the program `place`, byte by byte.
#[test]
fn the_record_of_document_01() {
    let mut bytes = vec![8];
    for place in 0..511 {
        let entry: f32 = if place < 256 { -1.0 } else { 0.0 };
        bytes.extend(entry.to_le_bytes());
    }
    bytes.extend([2, 2, 2, 1]);
    bytes.extend([0, 0, 0x80, 0x3F, 0, 0, 0, 0x3F]);
    bytes.extend([2, 0, 1, 0, 0, 0, 0, 0, 0, 0, 15, 0, 0, 0, 0, 0, 0, 0]);
    bytes.extend([1, 0, 1, 0, 0, 0, 0, 0, 0, 0x80, 0x3F, 128]);
    let grid = [0, 0, 0, 0, 0, 0, 0xFF, 0, 0, 0xFF, 0xFF, 0, 0, 0, 0, 0];
    bytes.extend(grid);
    let read = read(&bytes).expect("a good record");
    let shot = &read.shot;
    assert_eq!([shot.rows, shot.cols, shot.bits, shot.border], [2, 2, 2, 1]);
    assert_eq!(shot.codes, [1, 15]);
    let sample = shot.cells[0].sample.as_ref().expect("a sampled cell");
    assert_eq!(sample.threshold, 128);
    assert_eq!(sample.grid, grid);
    assert_eq!(read.starts, [bytes.len() - 25]);
    assert_eq!(write(shot).bytes, bytes);
}
