//! Shot records: special ones, good ones of many shapes, damaged ones, and bytes of no meaning.

mod fields;

use crate::subject::{Subject, Subjects, of_legacy_boards};
use cases::prng::Prng;
use fields::Extent::{self, All, Few};
use records::telling::{Telling, telling, telling_least_weights, telling_marked};
use records::{Cell, LONGEST, Sample, Shape, Shot, UNSAMPLED, damage, filled, settings, write};

const BITS: [u8; 11] = [0, 1, 2, 3, 4, 5, 6, 7, 8, 9, 255];
const BORDERS: [u8; 7] = [0, 1, 2, 3, 4, 5, 255];

const RANDOM_SHOTS: usize = 1_500;
const DAMAGED_SHOTS: usize = 40;
const RANDOM_BYTES: usize = 10_000;

/// Bits and border, by which the side is too large for 8 bits, or the number of grey levels for 16.
const LARGE_SIDES: [[u8; 2]; 9] = [
    [255, 255],
    [0, 128],
    [2, 127],
    [3, 127],
    [4, 126],
    [255, 1],
    [1, 255],
    [0, 255],
    [128, 64],
];

/// The legacy flag adds no field, so that every record may have it.
pub fn compare() -> Vec<Subject> {
    let mut subjects = Subjects::default();
    let current = [telling(), telling_least_weights(false)];
    for (record, extent) in all(current.into_iter().flatten(), &mut Prng::new(6)) {
        fields::compare(&mut subjects, &record, extent);
    }
    let mut of_legacy = Subjects::default();
    let legacy = [telling_marked(), telling_least_weights(true)];
    for (record, extent) in all(legacy.into_iter().flatten(), &mut Prng::new(36)) {
        fields::compare(&mut of_legacy, &damage::marked(record), extent);
    }
    [subjects.0, of_legacy_boards(of_legacy.0)].concat()
}

fn all(telling: impl Iterator<Item = Telling>, prng: &mut Prng) -> impl Iterator<Item = Asked> {
    let with_few = |record| (record, Few);
    let telling = telling.map(|asked| asked.record);
    let whole = [good(prng), at_the_limits(prng)].concat();
    let damaged = damaged(prng).into_iter();
    telling
        .map(with_few)
        .chain(whole)
        .chain(damaged.map(with_few))
}

/// A record, and how much of it is read.
type Asked = (Vec<u8>, Extent);

fn record(prng: &mut Prng, shape: Shape) -> Vec<u8> {
    write(&shape.shot(prng)).bytes
}

fn any_map(prng: &mut Prng) -> u8 {
    let flags: Vec<u8> = settings::presence_flags().collect();
    prng.pick(&flags)
}

/// Records of every side, border and map byte, with few cells and with many.
fn good(prng: &mut Prng) -> Vec<Asked> {
    let mut all = Vec::new();
    for bits in BITS {
        for border in BORDERS {
            let map = any_map(prng);
            let counts = [prng.place(5), prng.place(18)];
            let is_large = bits.max(border) == 255;
            let sampled = if is_large { 0 } else { prng.below(5) };
            let shape = Shape::new(map, [bits, border], counts, sampled);
            all.push((record(prng, shape), All));
        }
    }
    for map in settings::presence_flags() {
        for counts in [[0, 0], [1, 1], [0, 8], [9, 0], [3, 17], [100, 33]] {
            for sampled in [0, 2, 4] {
                let shape = Shape::new(map, [2, 1], counts, sampled);
                all.push((record(prng, shape), All));
            }
        }
    }
    all.extend(prng.many(RANDOM_SHOTS, |prng| {
        let shape = any_shape(prng);
        (record(prng, shape), Few)
    }));
    all
}

/// Of a size that a record can have: 300 cells of 10 by 10 grey levels fill half of it.
fn any_shape(prng: &mut Prng) -> Shape {
    let cells = prng.pick(&[3, 10, 40, 300]);
    let bits = if cells == 300 { 7 } else { 10 };
    let map = any_map(prng);
    let sides = [prng.below(bits) as u8, prng.below(3) as u8];
    let counts = [prng.pick(&[0, 1, 2, 30, 500]), prng.place(cells + 1)];
    Shape::new(map, sides, counts, prng.below(5))
}

/// As long as a record may be and longer, with thousands of cells, and with the largest sides.
fn at_the_limits(prng: &mut Prng) -> Vec<Asked> {
    let mut all = vec![(Vec::new(), All)];
    for cells in [0, 1, 250, 256, 257, 300, 2_000, 15_000] {
        for map in [0, 5, 15, 32, 47] {
            let sampled = if cells > 300 { 0 } else { 3 };
            let shot = Shape::new(map, [2, 1], [0, cells], sampled).shot(prng);
            all.push((write(&shot).bytes, Few));
            for length in [LONGEST - 1, LONGEST, LONGEST + 1, LONGEST + 2] {
                let shot = filled(prng, shot.clone(), length);
                all.push((write(&shot).bytes, Few));
            }
        }
    }
    let mut longest = write(&filled(prng, Shot::default(), LONGEST)).bytes;
    longest.push(0);
    all.push((longest, Few));
    for sides in LARGE_SIDES {
        large_side(prng, &mut all, sides);
    }
    // One sampled cell just fits: 255 × 255 grey levels.
    for sides in [[255, 0], [1, 127], [253, 1]] {
        all.push((record(prng, Shape::new(7, sides, [1, 1], 4)), All));
    }
    all
}

/// Cells that are not sampled pass with any side. One that is sampled has side × side grey levels, and no other number.
fn large_side(prng: &mut Prng, all: &mut Vec<Asked>, [bits, border]: [u8; 2]) {
    let side = usize::from(bits) + 2 * usize::from(border);
    let cut_side = side % 256;
    let squares = [0, side * side, cut_side * cut_side, side * side % 65_536];
    for length in squares.into_iter().chain([side, 2 * side, LONGEST - 100]) {
        let mut shot = Shot {
            bits,
            border,
            cells: vec![UNSAMPLED],
            ..Shot::default()
        };
        all.push((write(&shot).bytes, All));
        let sample = Some(Sample::new(1.0, 128, prng.many(length, Prng::byte)));
        let [u, v] = [-1, 2];
        shot.cells.push(Cell { u, v, sample });
        all.push((write(&shot).bytes, All));
    }
}

fn damaged(prng: &mut Prng) -> Vec<Vec<u8>> {
    let mut all = Vec::new();
    for _ in 0..DAMAGED_SHOTS {
        let shot = small_shape(prng).shot(prng);
        all.extend(damage::all(prng, &shot));
    }
    for map in [0, 1, 2, 4, 7, 8, 15, 32, 39, 47] {
        let mut shape = small_shape(prng);
        shape.map = map;
        let whole = record(prng, shape);
        all.extend(damage::truncations(&whole).map(<[u8]>::to_vec));
    }
    all.extend(prng.many(RANDOM_BYTES, damage::random_bytes));
    // The same with the flag of the least weight, so that the reader gets beyond its field.
    let mut flagged = prng.many(RANDOM_BYTES, damage::random_bytes);
    for map in flagged.iter_mut().filter_map(|record| record.first_mut()) {
        *map |= settings::LEAST_WEIGHT;
    }
    all.extend(flagged);
    all
}

fn small_shape(prng: &mut Prng) -> Shape {
    let map = any_map(prng);
    let sides = [prng.below(4) as u8, prng.below(2) as u8];
    let counts = [prng.place(4), prng.place(20)];
    Shape::new(map, sides, counts, prng.below(5))
}
