//! Parts of the library that no entry point shows by itself: rotated codes, layouts, alignments, the built-in table, null
//! scores and weights.

use crate::kinds::{
    BUILT_IN_TABLE, CELL_WEIGHT, CORNER_ALIGNMENT, Kind, LAYOUT, LEGACY_LAYOUT, NULL_SCORE,
    RECT_CORNERS, ROTATE_CODE, TURNED,
};
use crate::script::{Script, digest, float, signed};
use cases::answer::Answer;
use cases::codes::{SIDES, TURNS, patterns, random_code, single_bits};
use cases::floats::{
    BORDER_THRESHOLDS, FRACTIONS, GOOD_CELL_SIZES, LEAST, PIXELS, THIRD, float_bits, random_finite,
    random_fraction,
};
use cases::layout::sizes;
use cases::points::{TELLING, random_point};
use cases::prng::Prng;
use matches::given::{INVALID, VALID};
use matches::weights::Uncut;
use std::collections::BTreeSet;
use theirs::{BORDER_THRESHOLD, BUILT_IN, Board, cut, likelihood_table};

const SINGLE_BITS: usize = 5;
const RANDOM_CODES: usize = 6;
const TELLING_POINTS: usize = 7;
const RANDOM_POINTS: usize = 7;
const CELLS_OF_EACH_SIZE: usize = 3;
const RANDOM_CELLS: usize = 8;
const ENTRIES_OF_A_ROW: usize = 16;
const FRACTIONS_OF_A_THRESHOLD: usize = 4;
const NOT_SAMPLED: usize = 8;
const RANDOM_WEIGHTS: usize = 10;

pub fn ask(script: &mut Script) {
    codes(script);
    ask_layouts(script, false);
    for_each_turn(script, CORNER_ALIGNMENT, 14, theirs::corner_translation);
    for_each_turn(script, TURNED, 15, theirs::turned);
    rect_corners(script);
    table(script);
    for bits in SIDES {
        let null_score = [theirs::null_score(bits)];
        script.ask(NULL_SCORE, &[bits.into()], of_floats(&null_score));
    }
    weights(script);
}

fn of_floats(floats: &[f32]) -> Answer {
    Answer::of_words(floats.iter().copied().map(float_bits).collect::<Vec<_>>())
}

/// Low and high 32 bits.
pub fn halves(word: u64) -> [u32; 2] {
    [word as u32, (word >> 32) as u32]
}

fn codes(script: &mut Script) {
    let mut prng = Prng::new(11);
    for side in SIDES {
        let single = single_bits(side);
        // A set, as small sides have few codes.
        let mut codes = BTreeSet::from(patterns(side));
        codes.extend(prng.many(SINGLE_BITS, |prng| prng.pick(&single)));
        codes.extend(prng.many(RANDOM_CODES, |prng| random_code(prng, side)));
        for code in codes {
            for turn in TURNS {
                let turned = halves(theirs::rotate_code(code, side, turn));
                let arguments = [code, side.into(), turn.into()];
                script.ask(ROTATE_CODE, &arguments, Answer::of_words(turned));
            }
        }
    }
}

/// A board of each size, with a special size of its squares or any up to 100. With the legacy flag, the boards of 2 by 2, of
/// 4 rows and 5 columns, and of 3 by 3 are beside P1 to P3 of document 01.
pub fn ask_layouts(script: &mut Script, legacy: bool) {
    let (kind, seed) = if legacy {
        (LEGACY_LAYOUT, 32)
    } else {
        (LAYOUT, 12)
    };
    let mut prng = Prng::new(seed);
    for [rows, cols] in sizes() {
        let cell_size = match prng.below(2) {
            0 => prng.pick(&GOOD_CELL_SIZES),
            _ => (prng.below(1_000_000) + 1) as f32 / 10_000.0,
        };
        let board = Board::new(rows, cols, legacy, cell_size);
        let [d1, d2] = [by_place(&board, rows, cols), by_id(&board)];
        let words = [board.marker_count(), digest(d1), digest(d2)].map(|word| word as u32);
        let arguments = [rows.into(), cols.into(), float(cell_size)];
        script.ask(kind, &arguments, Answer::of_words(words));
    }
}

fn by_place(board: &Board, rows: u8, cols: u8) -> Vec<u32> {
    let mut told = Vec::new();
    for j in -1..=i32::from(rows) + 1 {
        for i in -1..=i32::from(cols) + 1 {
            told.extend(id(board.marker_id_at(i, j)));
            told.extend(id(board.corner_id(i, j)));
        }
    }
    told
}

/// No board has as many markers or corners, so that some ids are unknown.
const MOST_IDS: u32 = 1025;

fn by_id(board: &Board) -> Vec<u32> {
    let mut told = Vec::new();
    for number in 0..MOST_IDS {
        let place = |place: Option<[u64; 2]>| id(place.map(|[i, j]| 65_536 * j + i));
        told.extend(place(board.marker_position(number)));
        told.extend(place(board.corner_position(number)));
        let point = board.object_xy(number).unwrap_or([f32::NAN; 2]);
        told.extend(point.map(float_bits));
        let four = board.surrounding_corners(number);
        told.extend(four.map_or([u32::MAX; 8].to_vec(), |four| four.map(halves).concat()));
    }
    told
}

fn id(id: Option<u64>) -> [u32; 2] {
    halves(id.unwrap_or(u64::MAX))
}

fn telling_point(prng: &mut Prng) -> [i16; 2] {
    prng.two(|prng| prng.pick(&TELLING))
}

/// The point (5, 7) is the example of document 01.
fn for_each_turn(script: &mut Script, kind: Kind, seed: u64, theirs: fn(u8, [i16; 2]) -> [i32; 2]) {
    let mut prng = Prng::new(seed);
    let mut points = vec![[5, 7]];
    points.extend(prng.many(TELLING_POINTS, telling_point));
    points.extend(prng.many(RANDOM_POINTS, random_point));
    for [u, v] in points {
        for turn in TURNS {
            let words = theirs(turn, [u, v]).map(i32::cast_unsigned);
            let arguments = [turn.into(), signed(u), signed(v)];
            script.ask(kind, &arguments, Answer::of_words(words));
        }
    }
}

fn rect_corners(script: &mut Script) {
    let mut prng = Prng::new(16);
    let mut cells = Vec::new();
    for px in PIXELS {
        cells.extend(prng.many(CELLS_OF_EACH_SIZE, |prng| (telling_point(prng), px)));
    }
    cells.extend(prng.many(RANDOM_CELLS, |prng| {
        (random_point(prng), random_finite(prng))
    }));
    for ([u, v], px) in cells {
        let corners = theirs::cell_rect_corners([u, v], px);
        let arguments = [signed(u), signed(v), float(px)];
        script.ask(RECT_CORNERS, &arguments, of_floats(corners.as_flattened()));
    }
}

fn table(script: &mut Script) {
    let mut table = likelihood_table(BUILT_IN).to_vec();
    table.resize(table.len().next_multiple_of(ENTRIES_OF_A_ROW), f32::NAN);
    for (number, entries) in table.chunks(ENTRIES_OF_A_ROW).enumerate() {
        let first = (number * ENTRIES_OF_A_ROW) as u64;
        script.ask(BUILT_IN_TABLE, &[first], of_floats(entries));
    }
}

/// Without a least weight, which is then 0.
fn weights(script: &mut Script) {
    let mut prng = Prng::new(17);
    let mut ask = |threshold: f32, sampled: bool, fraction: f32| {
        ask_weight(script, threshold, 0.0, sampled, fraction);
    };
    for fraction in FRACTIONS {
        ask(BORDER_THRESHOLD, true, fraction);
    }
    for threshold in BORDER_THRESHOLDS {
        for _ in 0..FRACTIONS_OF_A_THRESHOLD {
            ask(threshold, true, prng.pick(&FRACTIONS));
        }
    }
    for _ in 0..NOT_SAMPLED {
        let threshold = prng.pick(&BORDER_THRESHOLDS);
        ask(threshold, false, prng.pick(&FRACTIONS));
    }
    for _ in 0..RANDOM_WEIGHTS {
        let fraction = random_fraction(&mut prng);
        ask(random_fraction(&mut prng), true, fraction);
        ask(random_finite(&mut prng), true, fraction);
    }
}

/// The cut of upstream's weight.
fn ask_weight(script: &mut Script, threshold: f32, least: f32, sampled: bool, fraction: f32) {
    let weight = theirs::cell_weight(threshold, sampled, fraction);
    let arguments = [
        float(threshold),
        float(least),
        sampled.into(),
        float(fraction),
    ];
    script.ask(CELL_WEIGHT, &arguments, of_floats(&[cut(weight, least)]));
    script.weights.push(Uncut {
        weight,
        fraction: sampled.then_some(fraction),
        least,
    });
}

/// With a least weight (document 02, 2.8): at the weight and next to it; those that check 9 passes and refuses, as a weight is
/// defined for all.
pub fn ask_least_weights(script: &mut Script) {
    let mut prng = Prng::new(19);
    for threshold in BORDER_THRESHOLDS.into_iter().chain([BORDER_THRESHOLD; 8]) {
        let fraction = match prng.below(2) {
            0 => prng.pick(&FRACTIONS),
            _ => random_fraction(&mut prng),
        };
        let weight = theirs::cell_weight(threshold, true, fraction);
        for least in [weight, weight.next_up(), weight.next_down()] {
            ask_weight(script, threshold, least, true, fraction);
        }
    }
    for least in VALID.into_iter().chain(INVALID) {
        ask_weight(script, BORDER_THRESHOLD, least, true, THIRD);
        let threshold = prng.pick(&BORDER_THRESHOLDS);
        ask_weight(script, threshold, least, true, prng.pick(&FRACTIONS));
        ask_weight(script, threshold, least, false, prng.pick(&FRACTIONS));
    }
    for fraction in [0.0, -0.0] {
        for least in [0.0, -0.0, LEAST] {
            ask_weight(script, BORDER_THRESHOLD, least, true, fraction);
        }
    }
}
