//! Records of 65,535 bytes that come to the search, with 256 cells of 16 by 16 grey levels, not all of them sampled.

use super::scene::{Look, Scene};
use cases::codes::random_code;
use cases::corner_lists::rectangle;
use cases::prng::Prng;
use records::{LONGEST, Sample, Shot, write};

/// The most codes that pass check 6.
const MOST_CODES: usize = 1024;

const MOST_CELLS: usize = 256;

/// Fraction, threshold and grey levels.
fn bytes_of_sample(shot: &Shot) -> usize {
    5 + shot.greys()
}

/// With how many codes, at least this many and otherwise the most, and how many sampled cells the record of a shot has 65,535
/// bytes. The shot has no codes, and no cell of it is sampled.
pub fn codes_and_samples(shot: &Shot, least_codes: usize) -> [usize; 2] {
    let room = LONGEST - write(shot).bytes.len();
    let mut counts = (least_codes..=MOST_CODES).rev();
    let is_whole = |codes: &usize| (room - 8 * codes).is_multiple_of(bytes_of_sample(shot));
    let codes = counts.find(is_whole);
    let codes = codes.expect("some number of codes leaves whole cells");
    [codes, (room - 8 * codes) / bytes_of_sample(shot)]
}

/// A block of cells on a board of 32 by 32 squares. Half of the time the translation has four digits and a sign, by which the line of
/// the best placement is longest.
pub fn shot(prng: &mut Prng, legacy: bool) -> Shot {
    let mut scene = Scene::of_board(prng, [32, 32], legacy);
    scene.bits = 8;
    scene.border = 4;
    scene.codes = prng.many(MOST_CODES, |prng| random_code(prng, 8));
    if prng.one_in(2) {
        scene.turn = 0;
        scene.translation = prng.two(|prng| -4000 - prng.below(60) as i32);
    }
    scene.squares = rectangle([0, 0], [16, 16]).collect();
    prng.shuffle(&mut scene.squares);
    let mut shot = scene.shot(prng, Look::Clear);
    // With a minimum margin of its own, so that no field is added to it.
    shot.set_minimum_margin(prng.pick(&[0.0, 0.05]));
    let samples: Vec<Option<Sample>> = (shot.cells.iter_mut())
        .map(|cell| cell.sample.take())
        .collect();
    shot.codes.clear();
    let [codes, sampled] = codes_and_samples(&shot, scene.codes.len() / 2);
    shot.codes = scene.codes[..codes].to_vec();
    let first = MOST_CELLS - sampled;
    for (cell, sample) in shot.cells.iter_mut().zip(samples).skip(first) {
        cell.sample = sample;
    }
    shot
}
