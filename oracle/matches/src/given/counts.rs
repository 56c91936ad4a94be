//! Shots that show how many cells contribute (document 02, 2.5): some cells have no weight, and few placements fit, so that the
//! counts of best and runner-up often differ, or that of the runner-up is 0. Now and then 256 cells, which may all contribute.

use super::scene::{Look, Scene};
use cases::corner_lists::rectangle;
use cases::floats::{BORDER_THRESHOLDS, FRACTIONS, LEAST};
use cases::prng::Prng;
use records::{Shot, settings};

const MOST_CELLS: usize = 256;

/// Most of them give no weight. By a border threshold of at most 0 all give the weight 1, and by one of 2 or more the last gives none.
const LITTLE: [f32; 4] = [0.0, 0.0, -0.0, LEAST];

pub fn shot(prng: &mut Prng, legacy: bool) -> Shot {
    let mut shot = match prng.below(100) {
        0 => most_cells(prng, legacy),
        _ => few_cells(prng, legacy),
    };
    if prng.one_in(3) {
        shot.map |= settings::BORDER_THRESHOLD;
        shot.border_threshold = prng.pick(&BORDER_THRESHOLDS).to_bits();
    }
    if !prng.one_in(4) {
        shot.set_minimum_margin(prng.pick(&[0.0, -0.0, -1.0]));
    }
    shot
}

/// Any squares, or those of markers alone, and three times out of four also opposite corners of the board with little weight. These
/// leave two placements on a board that is not square, and where rows and columns make an odd sum the cells that are on markers in
/// one are on other squares in the other.
fn few_cells(prng: &mut Prng, legacy: bool) -> Shot {
    let size = prng.two(|prng| 2 + prng.below(7) as u8);
    let mut scene = Scene::of_board(prng, size, legacy);
    let [cols, rows] = [scene.cols, scene.rows].map(i32::from);
    let mut squares: Vec<[i32; 2]> = rectangle([0, 0], [cols, rows]).collect();
    if prng.one_in(3) {
        squares.retain(|&square| scene.code(square).is_some());
    }
    prng.shuffle(&mut squares);
    squares.truncate(prng.pick(&[1, 2, 3, 5, 9, 20]));
    let corners = [[0, 0], [cols - 1, rows - 1]];
    let is_framed = !prng.one_in(4);
    if is_framed {
        squares.retain(|square| !corners.contains(square));
        squares.extend(corners);
    }
    scene.squares = squares;
    let mut shot = scene.shot(prng, Look::Clear);
    let most = prng.pick(&[0, 1, 2, 4]);
    let framed = if is_framed { corners.len() } else { 0 };
    let first_of_frame = shot.cells.len() - framed;
    for place in 0..shot.cells.len() {
        if place >= first_of_frame || prng.below(8) < most {
            with_little_weight(prng, &mut shot, place);
        } else if prng.one_in(4) {
            set_fraction(prng, &mut shot, place, &FRACTIONS);
        }
    }
    prng.shuffle(&mut shot.cells);
    shot
}

fn with_little_weight(prng: &mut Prng, shot: &mut Shot, place: usize) {
    if prng.one_in(2) {
        shot.cells[place].sample = None;
    } else {
        set_fraction(prng, shot, place, &LITTLE);
    }
}

fn set_fraction(prng: &mut Prng, shot: &mut Shot, place: usize, fractions: &[f32]) {
    if let Some(sample) = &mut shot.cells[place].sample {
        sample.fraction = prng.pick(fractions).to_bits();
    }
}

/// 256 squares of markers, half of the time some of them with little weight.
fn most_cells(prng: &mut Prng, legacy: bool) -> Shot {
    let size = prng.pick(&[[16, 32], [17, 31], [31, 17], [32, 17], [32, 32]]);
    let mut scene = Scene::of_board(prng, size, legacy);
    scene.border = 1;
    let all = rectangle([0, 0], [scene.cols, scene.rows].map(i32::from));
    scene.squares = all.filter(|&square| scene.code(square).is_some()).collect();
    prng.shuffle(&mut scene.squares);
    scene.squares.truncate(MOST_CELLS);
    let mut shot = scene.shot(prng, Look::Clear);
    for place in 0..prng.pick(&[0, 0, 0, 1, 2, 50]) {
        with_little_weight(prng, &mut shot, place);
    }
    shot
}
