//! Special records, valid and damaged, and the places in them that show most.

use crate::LONGEST;
use crate::damage::{before_rows, counts, marked, spare_bits, upper_bits, with_bytes_changed};
use crate::random::{FLOATS, Shape, filled};
use crate::shot::{Cell, Sample, Shot, TABLE_LENGTH, UNSAMPLED, settings};
use crate::write::write;
use cases::entries::changed;
use cases::prng::Prng;
use std::ops::RangeInclusive;

/// A record, and the places to read beside its header.
pub struct Telling {
    pub record: Vec<u8>,
    pub places: Vec<Place>,
}

#[derive(Clone, Copy)]
pub enum Place {
    Entry(usize),
    Code(usize),
    /// And its grid.
    Cell(usize),
}

use Place::{Code, Entry};

#[derive(Default)]
struct All(Vec<Telling>);

impl All {
    fn add(&mut self, record: &[u8]) {
        self.ask(record, []);
    }

    fn ask(&mut self, record: &[u8], places: impl IntoIterator<Item = Place>) {
        self.0.push(Telling {
            record: record.to_vec(),
            places: places.into_iter().collect(),
        });
    }

    fn ask_shot(&mut self, shot: &Shot, places: impl IntoIterator<Item = Place>) {
        self.ask(&write(shot).bytes, places);
    }
}

/// A place in each list, for a record that may be refused.
const ONE_OF_EACH: [Place; 3] = [Entry(255), Code(0), Place::Cell(0)];

/// The bits of a float of four equal bytes, -1.498: a table of it is one run of a byte.
const PLAIN_ENTRY: u32 = 0xBFBF_BFBF;

/// The map byte of a record that has every setting of document 01.
const ALL: u8 = 15;

/// Of four cells, so many are sampled where it does not matter how many.
const HALF: u64 = 2;

pub fn telling() -> Vec<Telling> {
    let mut prng = Prng::new(21);
    let mut all = All::default();
    of_document_01(&mut all);
    map_bytes(&mut all, &mut prng);
    float_patterns(&mut all, &mut prng);
    sides(&mut all, &mut prng);
    many_cells(&mut all, &mut prng);
    large_sides(&mut all);
    longest(&mut all);
    truncations(&mut all, &mut prng);
    damaged(&mut all, &mut prng);
    all.0
}

/// Of legacy boards, from a seed of its own.
pub fn telling_marked() -> Vec<Telling> {
    let mut prng = Prng::new(33);
    let mut all = All::default();
    let shot = Shot::of_document_01().marked();
    all.ask_shot(&shot, codes_and_cells(&shot).chain([Entry(255)]));
    marked_map_bytes(&mut all, &mut prng);
    marked_and_damaged(&mut all, &mut prng);
    all.0
}

/// With a least weight (document 02, 2.8), each from a seed of its own.
pub fn telling_least_weights(legacy: bool) -> Vec<Telling> {
    let mut prng = Prng::new(if legacy { 38 } else { 37 });
    let mut all = All::default();
    let flags = settings::LEAST_WEIGHT | if legacy { settings::LEGACY } else { 0 };
    with_maps(&mut all, &mut prng, flags..=flags | ALL);
    least_weight_patterns(&mut all, &mut prng, flags);
    least_weight_cut(&mut all, &mut prng, flags);
    least_weight_damaged(&mut all, &mut prng, flags);
    all.0
}

/// Every code and every cell, and one past each.
fn codes_and_cells(shot: &Shot) -> impl Iterator<Item = Place> {
    let codes = (0..=shot.codes.len()).map(Code);
    codes.chain((0..=shot.cells.len()).map(Place::Cell))
}

/// The record for the program `place`.
fn of_document_01(all: &mut All) {
    let shot = Shot::of_document_01();
    let entries = [0, 255, 256, 510, 511, 1 << 32, usize::MAX].map(Entry);
    all.ask_shot(&shot, codes_and_cells(&shot).chain(entries));
}

/// A random shot whose table, if it is given, is plain but for its ends and its middle.
fn random_with_plain_table(prng: &mut Prng, shape: Shape) -> Shot {
    let mut shot = shape.shot(prng);
    if shape.map & settings::TABLE != 0 {
        let telling = shot.table;
        shot.table = [PLAIN_ENTRY; TABLE_LENGTH];
        for k in [0, 255, 510] {
            shot.table[k] = telling[k];
        }
    }
    shot
}

/// Each setting given and not.
fn map_bytes(all: &mut All, prng: &mut Prng) {
    with_maps(all, prng, 0..=ALL);
}

/// The same with the legacy flag.
fn marked_map_bytes(all: &mut All, prng: &mut Prng) {
    with_maps(all, prng, settings::LEGACY..=settings::LEGACY | ALL);
}

fn with_maps(all: &mut All, prng: &mut Prng, maps: RangeInclusive<u8>) {
    for map in maps {
        let shape = Shape::new(map, [2, 1], [1, usize::from(map % 3)], HALF);
        let shot = random_with_plain_table(prng, shape);
        let given = map & settings::TABLE != 0;
        let entries = if given { 509..512 } else { 255..257 };
        let cell = Place::Cell(usize::from(map % 2));
        all.ask_shot(&shot, entries.map(Entry).chain([cell]));
    }
}

/// Each special float in each field.
fn float_patterns(all: &mut All, prng: &mut Prng) {
    for first in 0..FLOATS.len() {
        let float = |field: usize| FLOATS[(first + field) % FLOATS.len()];
        let mut shot = Shape::new(ALL, [1, 0], [0, 1], 4).shot(prng);
        shot.minimum_margin = float(0);
        shot.border_threshold = float(1);
        shot.px_per_square = float(2);
        shot.cell_size = float(3);
        shot.marker_size_rel = float(4);
        shot.table = [PLAIN_ENTRY; TABLE_LENGTH];
        shot.table[first] = float(5);
        shot.samples_mut()
            .for_each(|sample| sample.fraction = float(6));
        all.ask_shot(&shot, [Entry(first), Entry(first + 1), Place::Cell(0)]);
    }
}

/// Bits and border.
#[rustfmt::skip]
const SIDES: [[u8; 2]; 10] = [
    [0, 0], [1, 0], [0, 1], [3, 1], [2, 3], [5, 2], [8, 1], [9, 0], [8, 4], [0, 5],
];

fn sides(all: &mut All, prng: &mut Prng) {
    for sides in SIDES {
        let shot = Shape::new(0, sides, [0, 3], HALF).shot(prng);
        all.ask_shot(&shot, codes_and_cells(&shot));
    }
}

/// More cells than starts are kept, some sampled; then as many as fit, none sampled.
fn many_cells(all: &mut All, prng: &mut Prng) {
    let shot = Shape::new(0, [1, 0], [40, 260], HALF).shot(prng);
    let cells = [0, 1, 7, 8, 9, 100, 101, 254, 255, 256, 257, 259, 260].map(Place::Cell);
    let codes = [0, 1, 20, 39, 40, 1 << 16, 1 << 61, usize::MAX].map(Code);
    let far = [1 << 16, (1 << 32) + 1, 1 << 62, usize::MAX].map(Place::Cell);
    all.ask_shot(&shot, cells.into_iter().chain(codes).chain(far));
    let [u, v] = [-1, -1];
    let shot = Shot {
        cells: vec![Cell { u, v, ..UNSAMPLED }; 15_879],
        ..Shot::default()
    };
    let cells = [0, 1, 254, 255, 256, 15_877, 15_878, 15_879];
    all.ask_shot(&shot, cells.map(Place::Cell));
}

/// With no sampled cell any side passes. A sampled cell of 255 by 255 grey levels fits; one of 765 by 765 does not, nor do
/// the 60,937 that are left when their number is cut to 16 bits.
fn large_sides(all: &mut All) {
    let cases = [
        ([255, 255], None),
        ([255, 0], Some(65_025)),
        ([1, 127], Some(65_025)),
        ([255, 0], Some(65_024)),
        ([255, 255], Some(0)),
        ([255, 255], Some(60_937)),
        ([255, 255], Some(64_009)),
        ([0, 128], Some(0)),
        ([2, 127], Some(0)),
        ([3, 127], Some(1)),
    ];
    for ([bits, border], greys) in cases {
        let sample = greys.map(|greys| Sample::new(1.0, 200, vec![77; greys]));
        let [u, v] = [4096, -4096];
        let shot = Shot {
            bits,
            border,
            cells: vec![Cell { u, v, sample }],
            ..Shot::default()
        };
        all.ask_shot(&shot, [0, 1].map(Place::Cell));
    }
}

/// Just as long as is allowed, and one byte longer, though every field is whole.
fn longest(all: &mut All) {
    for length in [LONGEST, LONGEST + 1] {
        let mut shot = filled(&mut Prng::new(22), Shot::default(), length);
        shot.codes.fill(0xA5A5_A5A5_A5A5_A5A5);
        let [codes, cells] = [shot.codes.len(), shot.cells.len()];
        all.ask_shot(&shot, [Code(codes - 1), Place::Cell(cells - 1)]);
    }
    // The first with a byte more.
    let mut shot = filled(&mut Prng::new(22), Shot::default(), LONGEST);
    shot.codes.fill(0);
    let mut record = write(&shot).bytes;
    all.add(&record);
    record.push(0);
    all.add(&record);
}

/// One byte after the other, up to the whole record and beyond it. Then a record with a table, at the lengths around
/// its table.
fn truncations(all: &mut All, prng: &mut Prng) {
    let mut record = write(&Shape::new(7, [1, 0], [1, 2], 4).shot(prng)).bytes;
    for length in 0..record.len() {
        all.add(&record[..length]);
    }
    all.ask(&record, ONE_OF_EACH);
    record.push(0);
    all.ask(&record, ONE_OF_EACH);

    let shape = Shape::new(settings::TABLE, [1, 0], [0, 0], 4);
    let record = write(&random_with_plain_table(prng, shape)).bytes;
    let table_end = 1 + 4 * TABLE_LENGTH;
    for cut in [1, 2, table_end - 1, table_end, table_end + 1, record.len()] {
        all.ask(&record[..cut], [Entry(0)]);
    }
}

/// Spare bits of both maps, wrong counts, settings that are not there, bytes changed at random.
fn damaged(all: &mut All, prng: &mut Prng) {
    for cells in [0, 1, 3, 7, 8, 9] {
        let written = write(&Shape::new(0, [1, 0], [2, cells], HALF).shot(prng));
        all.add(&written.bytes);
        // Those of the map byte come first.
        let known = if cells == 0 { 0 } else { settings::UPPER.len() };
        for record in &upper_bits(&written, cells)[known..] {
            all.add(record);
        }
        if cells % 8 == 1 {
            let maps = [1, 2, 4, 8, 255];
            let maps = maps.map(|map| changed(&written.bytes, |record| record[0] = map));
            for record in counts(&written).into_iter().chain(maps) {
                all.add(&record);
            }
        }
        all.ask(&with_bytes_changed(prng, &written.bytes), ONE_OF_EACH);
    }
}

/// A further bit beside the legacy flag, of both maps; a record cut short, wrong counts, bytes changed.
fn marked_and_damaged(all: &mut All, prng: &mut Prng) {
    let shot = Shape::new(settings::LEGACY, [1, 0], [2, 3], HALF).shot(prng);
    let written = write(&shot);
    for record in &upper_bits(&written, shot.cells.len())[1..] {
        all.add(record);
    }
    for cut in [1, 2, 13, written.bytes.len() - 1] {
        all.ask(&written.bytes[..cut], ONE_OF_EACH);
    }
    for record in counts(&written) {
        all.add(&record);
    }
    for _ in 0..4 {
        let changed = with_bytes_changed(prng, &written.bytes);
        all.ask(&marked(changed), ONE_OF_EACH);
    }
}

/// Each special float as the least weight.
fn least_weight_patterns(all: &mut All, prng: &mut Prng, flags: u8) {
    for float in FLOATS {
        let mut shot = Shape::new(flags, [1, 0], [0, 0], HALF).shot(prng);
        shot.least_weight = float;
        all.ask_shot(&shot, [Entry(255)]);
    }
}

/// One byte after the other; with a table at the lengths around the least weight, which is after it.
fn least_weight_cut(all: &mut All, prng: &mut Prng, flags: u8) {
    let record = write(&Shape::new(flags, [1, 0], [0, 0], HALF).shot(prng)).bytes;
    for length in 1..record.len() {
        all.add(&record[..length]);
    }
    let shape = Shape::new(flags | settings::TABLE, [1, 0], [1, 1], 4);
    let written = write(&random_with_plain_table(prng, shape));
    let end = written.rows_at;
    for cut in (end - 5..end + 2).chain([written.bytes.len()]) {
        all.ask(&written.bytes[..cut], ONE_OF_EACH);
    }
}

/// The flag without the field, the field without the flag, spare bits beside the flag, bytes missing before the rows.
fn least_weight_damaged(all: &mut All, prng: &mut Prng, flags: u8) {
    let shot = Shape::new(flags, [1, 0], [2, 3], HALF).shot(prng);
    let written = write(&shot);
    let without = Shot {
        map: flags & !settings::LEAST_WEIGHT,
        ..shot.clone()
    };
    let missing = changed(&write(&without).bytes, |record| record[0] = flags);
    let surplus = changed(&written.bytes, |record| record[0] = without.map);
    let broken = [
        vec![missing, surplus],
        spare_bits(&written, shot.cells.len()),
        before_rows(&written),
    ];
    for record in broken.concat() {
        all.ask(&record, ONE_OF_EACH);
    }
    for _ in 0..4 {
        all.ask(&with_bytes_changed(prng, &written.bytes), ONE_OF_EACH);
    }
}
