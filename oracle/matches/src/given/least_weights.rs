//! Shots with a least weight (document 02, 2.8): weights at it, one float below and one above; least weights at the ends of
//! their range and past them; shots of which the cut changes the answer.

use super::faults::with_faults;
use super::scene::{Look, Scene};
use super::{Given, counts, numbers, reach, ties, with_places};
use crate::weights::Uncut;
use cases::cells::Cell as Grid;
use cases::codes::turned_code;
use cases::floats::{
    ABOVE_1, BELOW_1, BORDER_THRESHOLDS, INF, LEAST, MAX, MIN, NAN, NORMAL, SIGNALLING, SUBNORMAL,
    THIRD, random_fraction,
};
use cases::prng::Prng;
use records::{Cell, Sample, Shot, settings};

/// Least weights that pass check 9: both ends of the range, the next floats to them, and others between.
pub const VALID: [f32; 12] = [
    0.0, -0.0, LEAST, SUBNORMAL, NORMAL, 1e-30, 0.1, 0.25, THIRD, 0.5, BELOW_1, 1.0,
];

/// Least weights that it refuses.
pub const INVALID: [f32; 16] = [
    ABOVE_1,
    1.5,
    2.0,
    MAX,
    -LEAST,
    -SUBNORMAL,
    -NORMAL,
    -1.0,
    MIN,
    INF,
    -INF,
    NAN,
    -NAN,
    SIGNALLING,
    f32::from_bits(0xFFFF_FFFF),
    f32::from_bits(0x7FC0_0001),
];

type Base = fn(&mut Prng, bool) -> Shot;

/// With settings, tables, ties and weights of every kind.
const BASES: [Base; 13] = [
    two_boards,
    two_boards,
    two_boards,
    two_boards,
    numbers::weights,
    numbers::any_settings,
    numbers::table_by_formula,
    numbers::any_table,
    numbers::odd_floats,
    ties::shot,
    ties::tiny_board,
    reach::shot,
    counts::shot,
];

/// One in five has a least weight that check 9 refuses, half of these with one fault more, of any check, and a few with a
/// cell twice. Of the others one in fifty has no least weight.
pub fn given(prng: &mut Prng, legacy: bool) -> Given {
    let base = if prng.one_in(200) {
        reach::many_cells
    } else {
        prng.pick(&BASES)
    };
    let mut shot = base(prng, legacy);
    if prng.one_in(2) {
        set_border_threshold(prng, &mut shot);
    }
    if prng.one_in(5) {
        shot.set_least_weight(prng.pick(&INVALID).to_bits());
        if prng.one_in(20) {
            shot.cells.push(shot.cells[0].clone());
        }
        let faults = prng.place(2);
        return with_faults(prng, shot, faults);
    }
    let least = least_weight(prng, &mut shot);
    if !prng.one_in(50) {
        shot.set_least_weight(least.to_bits());
    }
    with_places(prng, shot)
}

/// Powers of two by which a weight is just the one that is wanted, or any.
fn set_border_threshold(prng: &mut Prng, shot: &mut Shot) {
    let any = prng.pick(&BORDER_THRESHOLDS);
    shot.map |= settings::BORDER_THRESHOLD;
    shot.border_threshold = prng.pick(&[1.0, 0.5, 0.25, any, any]).to_bits();
}

/// The weight of a cell or the next float to it, so that some weights are at it, just below or just above; or any.
fn least_weight(prng: &mut Prng, shot: &mut Shot) -> f32 {
    match prng.below(4) {
        0 => prng.pick(&VALID),
        1 => random_fraction(prng),
        _ => {
            if prng.one_in(2) {
                set_fractions(prng, shot);
            }
            let of_cells = Uncut::all(shot);
            let weight = of_cells[prng.place(of_cells.len())].weight;
            let near = [weight, weight, weight.next_up(), weight.next_down()];
            prng.pick(&near).clamp(0.0, 1.0)
        }
    }
}

/// Three fractions out of four become those of weights that are equal or next to each other, as far as there are such.
fn set_fractions(prng: &mut Prng, shot: &mut Shot) {
    let threshold = f32::from_bits(shot.border_threshold);
    let weight = match prng.below(3) {
        0 => prng.pick(&VALID),
        _ => random_fraction(prng),
    };
    let [above, below] = [weight.next_up(), weight.next_down()];
    let near = [weight, weight, above, below, weight / 2.0];
    for sample in shot.samples_mut() {
        if !prng.one_in(4) {
            let fraction = prng.pick(&near) * threshold;
            sample.fraction = fraction.clamp(0.0, 1.0).to_bits();
        }
    }
}

/// 2 rows and 3 columns with a cell on each square. They fit as they are and rotated by 180°. Markers by their ids, without
/// the legacy flag and with it; the squares by their places:
///
/// ```text
/// . 0 .    0 . 1    0 1 2
/// 1 . 2    . 2 .    3 4 5
/// ```
///
/// As they are, three cells are on markers: the first shows its marker, with the weight 1, and the other two are not sampled.
/// Rotated, the other three are on markers and show them, with the weight 0.4 each: the fraction 0.2 by the border threshold
/// 0.5. So these are best unless the least weight is above 0.4.
pub fn two_small_boards(legacy: bool) -> Shot {
    let codes = vec![1, 3, 7];
    let on_markers = if legacy { [0, 2, 4] } else { [1, 3, 5] };
    let cell = |place: usize, code: u64, fraction: Option<f32>| {
        let grid = Grid::of_code([2, 1], 128, code);
        Cell {
            u: (place % 3) as i16,
            v: (place / 3) as i16,
            sample: fraction.map(|fraction| Sample::new(fraction, grid.threshold, grid.grid)),
        }
    };
    let as_they_are = on_markers.into_iter().zip([Some(1.0), None, None]);
    let as_they_are = as_they_are.map(|(place, fraction)| cell(place, codes[0], fraction));
    let rotated = on_markers.into_iter().zip(&codes);
    let rotated = rotated.map(|(place, &code)| cell(5 - place, turned_code(code, 2, 2), Some(0.2)));
    let shot = Shot {
        cols: 3,
        cells: as_they_are.chain(rotated).collect(),
        codes,
        ..Shot::default()
    };
    if legacy { shot.marked() } else { shot }
}

/// Some cells show the board as it is, and others, with smaller weights, as it is rotated by 180°. Where more cells show that,
/// it is the best placement without a cut.
fn two_boards(prng: &mut Prng, legacy: bool) -> Shot {
    let size = prng.two(|prng| 2 + prng.below(6) as u8);
    let scene = Scene::of_board(prng, size, legacy).with_part_seen(prng);
    let [cols, rows] = [scene.cols, scene.rows].map(|n| i32::from(n) - 1);
    let opposite = |[i, j]: [i32; 2]| [cols - i, rows - j];
    let rotated = Scene {
        turn: (scene.turn + 2) % 4,
        translation: opposite(scene.translation),
        squares: scene.squares.iter().copied().map(opposite).collect(),
        ..scene.clone()
    };
    let mut shot = scene.shot(prng, Look::Clear);
    let other = rotated.shot(prng, Look::Clear);
    let small = prng.pick(&[0.05f32, 0.2, 0.3, 0.45]);
    let of_four = prng.pick(&[1, 2, 3]);
    for (cell, other) in shot.cells.iter_mut().zip(other.cells) {
        assert_eq!([cell.u, cell.v], [other.u, other.v]);
        let is_rotated = prng.below(4) < of_four;
        if is_rotated {
            cell.sample = other.sample;
        }
        if let Some(sample) = &mut cell.sample {
            let large = prng.pick(&[1.0, 0.5, 0.4]);
            sample.fraction = if is_rotated { small } else { large }.to_bits();
        }
    }
    shot
}
