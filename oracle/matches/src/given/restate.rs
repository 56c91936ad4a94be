//! Records to restate (document 02, 2.7), and output arrays of bytes for them.

use super::faults::{with_board_faults, with_faults_of_match};
use super::repeats;
use super::scene::{Look, Scene, markers_of};
use super::score_arrays::FOR_REFUSED;
use super::{Given, Length};
use cases::cells::Cell as Grid;
use cases::codes::{
    SIDES, least_turn, most_different, random_code, random_different_codes, single_bits,
    turned_code,
};
use cases::floats::{GOOD_CELL_SIZES, GOOD_MARKER_SIZES};
use cases::prng::Prng;
use records::{LONGEST, Shape, Shot, UNSAMPLED, settings, write};
use std::collections::HashSet;

/// An output array before a call. Half of the time every byte in the record's place is another than the record's, so that a
/// byte that is left out shows.
pub fn sheet(prng: &mut Prng, record: &[u8], length: Length) -> Vec<u8> {
    let needed = match record.len() {
        0 | 1 => FOR_REFUSED, // too short for all lengths
        needed => needed,
    };
    let places = length.elements(prng, needed);
    let mut sheet = prng.many(places, Prng::byte);
    if prng.one_in(2) {
        for (byte, other) in sheet.iter_mut().zip(record) {
            *byte = !other;
        }
    }
    sheet
}

/// A board that is accepted, of this size; its codes are of any side that has so many different ones, often with others past
/// those of markers, up to 1,024. All else is random, so that a match may refuse it.
pub fn of_size(prng: &mut Prng, size: [u8; 2], legacy: bool) -> Shot {
    let markers = markers_of(size[0], size[1]);
    let sides: Vec<u8> = SIDES
        .filter(|&bits| markers <= most_different(bits))
        .collect();
    let bits = prng.pick(&sides);
    let least_weight = prng.pick(&[0, settings::LEAST_WEIGHT]);
    let shape = Shape {
        map: prng.below(16) as u8 | least_weight,
        sides: [bits, 1 + prng.below(4) as u8],
        codes: 0,
        cells: prng.pick(&[0, 1, 2, 3, 7, 8, 9, 20]),
        sampled_of_four: prng.below(5),
    };
    let mut shot = shape.shot(prng);
    [shot.rows, shot.cols] = size;
    shot.cell_size = prng.pick(&GOOD_CELL_SIZES).to_bits();
    shot.marker_size_rel = prng.pick(&GOOD_MARKER_SIZES).to_bits();
    shot.codes = random_different_codes(prng, bits, markers);
    let more = prng.pick(&[0, 0, 1, 2, 3, 40, 513, 1024]);
    let later = prng.many(more.min(1024 - markers), |prng| random_code(prng, bits));
    shot.codes.extend(later);
    if legacy { shot.marked() } else { shot }
}

/// Boards of 2 × 2 to 4 × 4 squares with codes of every side: of a side of 1 only 2 × 2 squares have enough.
pub fn small(prng: &mut Prng, legacy: bool) -> Shot {
    let size = prng.two(|prng| 2 + prng.below(3) as u8);
    of_size(prng, size, legacy)
}

/// One fault or two of the checks 21, 1 to 8 and 22, often of a board that 25 refuses where it has the flag.
pub fn with_faults(prng: &mut Prng, legacy: bool) -> Given {
    let mut size = prng.two(|prng| 2 + prng.below(7) as u8);
    if prng.one_in(2) {
        size = size.map(|side| side & !1);
    }
    let scene = Scene::of_board(prng, size, legacy).with_part_seen(prng);
    let shot = scene.shot(prng, Look::Clear);
    let faults = prng.pick(&[1, 2, 2]);
    with_board_faults(prng, shot, faults)
}

/// One fault or two of the checks 9 to 13 and 23, which only a match makes: the record passes.
pub fn refused_by_match(prng: &mut Prng, legacy: bool) -> Given {
    if prng.one_in(5) {
        return repeats::given(prng, legacy);
    }
    let shot = Scene::random(prng, legacy).shot(prng, Look::Clear);
    let faults = prng.pick(&[1, 1, 2]);
    with_faults_of_match(prng, shot, faults)
}

/// Of 65,535 bytes, with few cells of large grids or many that are unsampled.
pub fn longest(prng: &mut Prng, legacy: bool) -> Shot {
    let size = prng.pick(&[[2, 3], [32, 31], [8, 5], [7, 4], [31, 31], [6, 6]]);
    let mut shot = of_size(prng, size, legacy);
    // With a minimum margin of its own, so that no field is added to it.
    shot.map = shot.map & !settings::TABLE | settings::MINIMUM_MARGIN;
    shot.codes.truncate(markers_of(size[0], size[1]) + 3);
    let left = |shot: &Shot| LONGEST.saturating_sub(write(shot).bytes.len());
    if prng.one_in(2)
        && let Some(cell) = shot.cells.iter().find(|cell| cell.sample.is_some())
    {
        let cell = cell.clone();
        let count = left(&shot) / (shot.greys() + 10);
        shot.cells.extend(vec![cell; count.saturating_sub(1)]);
    }
    let count = left(&shot) * 8 / 33;
    shot.cells.extend(vec![UNSAMPLED; count.saturating_sub(9)]);
    // A cell has 4 bytes, or 5 with one of the map; a code has 8.
    while left(&shot) % 8 != 0 {
        shot.cells.push(UNSAMPLED);
    }
    let more = left(&shot) / 8;
    let bits = shot.bits;
    shot.codes
        .extend(prng.many(more, |prng| random_code(prng, bits)));
    shot
}

/// Two cells on the outer markers of 2 × 3 squares. In one rotation the first cell is read without a fault and the second with
/// two, in the opposite one both with one. So both placements have the same evidence, below 0, and one emits no marker.
pub fn tied_below_0(prng: &mut Prng, legacy: bool) -> Shot {
    let mut scene = Scene::of_board(prng, [2, 3], legacy);
    scene.bits = 2;
    let rotated = |code| turned_code(code, 2, 2);
    let one_bit_of = |prng: &mut Prng, code: u64| code ^ prng.pick(&single_bits(2));
    let seen = loop {
        let first = random_code(prng, 2);
        let second = rotated(one_bit_of(prng, first));
        let third = random_code(prng, 2);
        scene.codes = vec![first, second, third];
        let seen = one_bit_of(prng, rotated(first));
        let least = scene.codes.iter().map(|&code| least_turn(code, 2));
        let different: HashSet<u64> = least.collect();
        if different.len() == 3 && (seen ^ second).count_ones() == 2 {
            break [first, seen];
        }
    };
    scene.squares = vec![[0, 0], [2, 0]];
    let mut shot = scene.shot(prng, Look::Clear);
    for (sample, code) in shot.samples_mut().zip(seen) {
        let code = turned_code(code, 2, scene.turn);
        sample.grid = Grid::of_code([2, scene.border], 128, code).grid;
        sample.threshold = 128;
    }
    shot.set_minimum_margin(prng.pick(&[0.0, -0.0, -1.0]));
    shot
}
