//! For each number the largest record that fails the check and passes all before it.
//!
//! Nothing bounds the number of cells before check 12. So all records up to there but that for 11 have the most bytes that
//! check 21 allows. They are filled up with cells that are not sampled: these have the fewest bytes, and check 21 goes over
//! all of them. Settings and a table are given, and codes as far as they are read, since each takes longer than the cells
//! that have as many bytes. The codes are random ones of 8 by 8 bits, of which no two are equal up to rotation: check 22
//! rotates 512 of them, which takes longest for the largest side, and puts the least rotations in order.

use cases::codes::{random_different_codes, turned_code};
use cases::corner_lists::{FARTHEST, rectangle};
use cases::prng::Prng;
use matches::MOST_PLACES;
use matches::given::{Given, Look, Scene, codes_and_samples};
use matches::scores::MOST_SCORES;
use records::{Cell, LONGEST, Sample, Shot, TABLE_LENGTH, UNSAMPLED, write};

pub struct Asked {
    pub number: u32,
    /// What the check refuses.
    pub what: &'static str,
    pub cells: usize,
    pub given: Given,
    /// Elements of the score array, for a match with scores.
    pub scores: Option<usize>,
}

impl Asked {
    /// With a list that has a place for each of the most cells.
    fn new(number: u32, what: &'static str, shot: &Shot) -> Self {
        Self {
            number,
            what,
            cells: shot.cells.len(),
            given: Given {
                record: write(shot).bytes,
                places: MOST_PLACES,
            },
            scores: None,
        }
    }

    /// With a score array of so many elements, too.
    fn with_scores(self, scores: usize) -> Self {
        Self {
            scores: Some(scores),
            ..self
        }
    }
}

/// In the order of the checks, then a match; then the same from 15 on for a match with scores, of which the largest array is
/// filled before.
pub fn asked() -> Vec<Asked> {
    let up_to_10 = FAULTS.map(|(number, what, codes, fault)| {
        let mut shot = without_cells(codes);
        fault(&mut shot);
        Asked::new(number, what, &filled_up(shot, LONGEST))
    });
    let mut all = vec![a_byte_more()];
    all.extend(up_to_10);
    all.extend([no_cell(), too_many_cells()]);
    all.extend(from_23());
    all.extend(largest_searches());
    let filled = [one_too_far_off()].into_iter().chain(largest_searches());
    all.extend(filled.map(|asked| asked.with_scores(MOST_SCORES)));
    all
}

/// The map byte of a record that gives every setting and the table.
const ALL: u8 = 47;

const BITS: u8 = 8;

/// The most codes that pass check 6. Check 8 goes over all of them.
const MOST_CODES: usize = 1024;

/// The most codes that markers have. No check before 8 reads more, nor does 22.
const MARKER_CODES: usize = 512;

const MOST_CELLS: usize = 256;

/// Bytes of a sample besides its grid: fraction and threshold.
const SAMPLE: usize = 5;

fn without_cells(codes: usize) -> Shot {
    Shot {
        map: ALL,
        rows: 32,
        cols: 32,
        bits: BITS,
        codes: random_codes(codes),
        ..Shot::default()
    }
}

fn random_codes(count: usize) -> Vec<u64> {
    random_different_codes(&mut Prng::new(17), BITS, count)
}

/// A cell at the origin that is sampled.
fn sampled(shot: &Shot) -> Cell {
    let grid = vec![0; shot.greys()];
    Cell {
        sample: Some(Sample::new(1.0, 128, grid)),
        ..UNSAMPLED
    }
}

/// The shot with so many cells that its record has just so many bytes. Eight that are not sampled have 33; the few that
/// have to be sampled come first.
fn filled_up(mut shot: Shot, length: usize) -> Shot {
    let room = length - write(&shot).bytes.len();
    let counts = (0..).map(|sampled| {
        let room = room - sampled * (SAMPLE + shot.greys());
        (sampled, room, room * 8 / 33)
    });
    let mut fitting = counts.filter(|(_, room, cells)| 4 * cells + cells.div_ceil(8) == *room);
    let (few, _, cells) = fitting.next().expect("every length can be had");
    shot.cells = vec![sampled(&shot); few];
    shot.cells.resize(cells, UNSAMPLED);
    shot
}

/// Found where the last cell ends.
fn a_byte_more() -> Asked {
    let shot = filled_up(without_cells(MARKER_CODES), LONGEST - 1);
    let mut asked = Asked::new(21, "a byte after the last cell", &shot);
    asked.given.record.push(0);
    asked
}

/// Number, what is refused, how many codes there are, and the fault of the shot.
type Fault = (u32, &'static str, usize, fn(&mut Shot));

/// Where a check goes over many values, the last one is wrong.
const FAULTS: [Fault; 11] = [
    (1, "one column", MARKER_CODES, |shot| shot.cols = 1),
    (2, "cell_size NaN", MARKER_CODES, |shot| {
        shot.cell_size = f32::NAN.to_bits();
    }),
    (3, "marker_size_rel NaN", MARKER_CODES, |shot| {
        shot.marker_size_rel = f32::NAN.to_bits();
    }),
    (4, "border 0", MARKER_CODES, |shot| shot.border = 0),
    (5, "no code", 0, |_| ()),
    (6, "33 columns", MARKER_CODES, |shot| shot.cols = 33),
    (7, "a code too few", MARKER_CODES - 1, |_| ()),
    // No code of 8 by 8 bits is too large.
    (8, "the last code too large", MOST_CODES, |shot| {
        shot.bits = 7;
        for code in &mut shot.codes {
            *code >>= 15;
        }
        shot.codes[MOST_CODES - 1] = 1 << 49;
    }),
    (
        22,
        "the last two codes equal up to rotation",
        MOST_CODES,
        |shot| {
            let [.., before, last] = &mut shot.codes[..MARKER_CODES] else {
                unreachable!("there are two")
            };
            *last = turned_code(*before, BITS, 1);
        },
    ),
    (9, "least weight NaN", MOST_CODES, |shot| {
        shot.least_weight = f32::NAN.to_bits();
    }),
    (10, "the last table entry above 0", MOST_CODES, |shot| {
        shot.table[TABLE_LENGTH - 1] = 1.0f32.to_bits();
    }),
];

/// Only cells could make it longer, as check 6 bounds the codes.
fn no_cell() -> Asked {
    Asked::new(11, "no cell", &without_cells(MOST_CODES))
}

/// The count is refused at once. That takes longer all the same than 256 cells of which the last lies too far off, since
/// check 21 goes over more of them.
fn too_many_cells() -> Asked {
    let shot = filled_up(without_cells(MOST_CODES), LONGEST);
    Asked::new(12, "more than 256 cells", &shot)
}

/// 256 cells, with grids of 16 by 16 grey levels, by which the record still has the most bytes. As many are sampled as there
/// is room for, and they are the last. Their points are different and lie over the whole range, in any order: check 23 takes
/// longer then than for a block that fits on a board.
fn most_cells() -> Shot {
    let mut shot = without_cells(0);
    shot.border = 4;
    shot.cells = vec![UNSAMPLED; MOST_CELLS];
    let [codes, samples] = codes_and_samples(&shot, MARKER_CODES);
    shot.codes = random_codes(codes);
    let cell = sampled(&shot);
    shot.cells[MOST_CELLS - samples..].fill(cell);
    let mut prng = Prng::new(19);
    let mut any = || (prng.below(FARTHEST as u64 * 2) as i32 - FARTHEST) as i16;
    for cell in &mut shot.cells {
        [cell.u, cell.v] = [any(), any()];
    }
    shot
}

/// 23, 13, 14, 24 and 15.
fn from_23() -> [Asked; 5] {
    const LAST: usize = MOST_CELLS - 1;
    let shot = most_cells();
    // Their point is above all others, so that it is found last.
    let mut twice = shot.clone();
    for cell in &mut twice.cells[LAST - 1..] {
        [cell.u, cell.v] = [FARTHEST as i16; 2];
    }
    let mut odd = shot.clone();
    if let Some(sample) = odd.samples_mut().last() {
        sample.fraction = f32::NAN.to_bits();
    }
    let mut short = Asked::new(14, "an output array one word too short", &shot);
    short.given.places -= 1;
    [
        Asked::new(23, "the last two cells at the same position", &twice),
        Asked::new(13, "the last fraction NaN", &odd),
        short,
        Asked::new(24, "a score array one element too short", &shot).with_scores(MOST_SCORES - 1),
        Asked::new(15, "cells too far apart", &shot),
    ]
}

/// 15 of a match with scores, which takes longest where all cells are sampled.
fn one_too_far_off() -> Asked {
    let mut shot = most_searched();
    shot.cells[MOST_CELLS - 1].u = FARTHEST as i16;
    Asked::new(15, "one cell too far off", &shot)
}

/// 256 cells of 8 by 8 bits in a block, in any order. It has 1,156 placements; no 256 points have more. No larger record has as
/// much to search: with a border of 4 the grids alone would have 65,536 bytes.
fn most_searched() -> Shot {
    let mut prng = Prng::new(18);
    let mut squares: Vec<[i32; 2]> = rectangle([8, 8], [16, 16]).collect();
    prng.shuffle(&mut squares);
    let Shot {
        rows, cols, codes, ..
    } = without_cells(MOST_CODES);
    let scene = Scene {
        rows,
        cols,
        legacy: false,
        bits: BITS,
        border: 3,
        turn: 0,
        translation: [0, 0],
        codes,
        squares,
    };
    let mut placed = scene.shot(&mut prng, Look::Clear);
    placed.map = ALL;
    placed
}

/// 16, 17 and a match.
fn largest_searches() -> [Asked; 3] {
    let placed = most_searched();
    let mut narrow = placed.clone();
    narrow.minimum_margin = f32::MAX.to_bits();
    // No evidence is above 0 by this table, so that the margin is 0 and no cell emits a marker, though half of them lie on one.
    let mut none = placed.clone();
    none.minimum_margin = 0.0f32.to_bits();
    none.table = [(-1.0f32).to_bits(); TABLE_LENGTH];
    [
        Asked::new(16, "a minimum above every margin", &narrow),
        Asked::new(17, "no evidence above 0", &none),
        Asked::new(0, "none: the board is placed", &placed),
    ]
}
