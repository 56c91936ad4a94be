//! Shots in which placements tie: equal grids or cells, markers that look the same when they are rotated. No two markers are
//! equal up to rotation; codes past the last marker may be like any.

use super::points::free_in_frame;
use super::scene::{Look, Scene, markers_of};
use cases::cells::Cell as Grid;
use cases::codes::{least_turn, patterns};
use cases::floats::NORMAL;
use cases::prng::Prng;
use records::{Cell, Sample, Shot};

type Change = fn(&mut Prng, &mut Shot);

/// What makes placements equal.
const CHANGES: [Change; 10] = [
    unused_codes,
    a_code_that_turns_keep,
    cells_that_turns_keep,
    equal_grids,
    two_grids,
    |_, shot| for_each_grey(shot, |threshold| threshold),
    |_, shot| for_each_grey(shot, |threshold| threshold.saturating_sub(1)),
    one_grey,
    copied_cells,
    any_margin,
];

/// One change or two, half of the time with a minimum margin that a tie passes.
pub fn shot(prng: &mut Prng, legacy: bool) -> Shot {
    let mut shot = Scene::random(prng, legacy).any_shot(prng);
    for _ in 0..1 + prng.below(2) {
        prng.pick(&CHANGES)(prng, &mut shot);
    }
    if prng.one_in(2) {
        any_margin(prng, &mut shot);
    }
    shot
}

fn any_margin(prng: &mut Prng, shot: &mut Shot) {
    shot.set_minimum_margin(prng.pick(&[0.0, -0.0, -1.0, NORMAL]));
}

/// Codes past the last marker that are like those of markers, and all the same.
fn unused_codes(prng: &mut Prng, shot: &mut Shot) {
    let code = prng.pick(&shot.codes);
    shot.codes.truncate(markers_of(shot.rows, shot.cols));
    let used = shot.codes.clone();
    shot.codes.extend(used.iter().take(3));
    shot.codes.extend([code; 2]);
}

/// A marker gets no bit, every bit, or one of the checkers, unless that is like another marker.
fn a_code_that_turns_keep(prng: &mut Prng, shot: &mut Shot) {
    let bits = shot.bits;
    let code = prng.pick(&patterns(bits));
    let markers = &mut shot.codes[..markers_of(shot.rows, shot.cols)];
    let is_like = |other: &u64| least_turn(*other, bits) == least_turn(code, bits);
    if !markers.iter().any(is_like) {
        markers[prng.place(markers.len())] = code;
    }
}

/// Every cell shows a checker, no bit or every bit, so that rotations of one marker tie.
fn cells_that_turns_keep(prng: &mut Prng, shot: &mut Shot) {
    let [bits, border] = [shot.bits, shot.border];
    let code = prng.pick(&patterns(bits));
    for sample in shot.samples_mut() {
        let grid = Grid::of_code([bits, border], sample.threshold, code);
        sample.grid = grid.grid;
    }
}

fn equal_grids(prng: &mut Prng, shot: &mut Shot) {
    let sample = any_sample(prng, shot);
    for cell in &mut shot.cells {
        cell.sample = sample.clone();
    }
}

fn two_grids(prng: &mut Prng, shot: &mut Shot) {
    let two = prng.two(|prng| any_sample(prng, shot));
    for cell in &mut shot.cells {
        cell.sample = two[prng.place(2)].clone();
    }
}

fn any_sample(prng: &mut Prng, shot: &Shot) -> Option<Sample> {
    shot.cells[prng.place(shot.cells.len())].sample.clone()
}

fn one_grey(prng: &mut Prng, shot: &mut Shot) {
    let grey = prng.pick(&[0, 1, 127, 128, 254, 255]);
    for_each_grey(shot, |_| grey);
}

fn for_each_grey(shot: &mut Shot, grey: impl Fn(u8) -> u8) {
    for sample in shot.samples_mut() {
        sample.grid.fill(grey(sample.threshold));
    }
}

/// Cells that show what another one does, at points of the frame without a cell, or in the place of a cell where there is none.
fn copied_cells(prng: &mut Prng, shot: &mut Shot) {
    for _ in 0..1 + prng.below(4) {
        let [from, other] = prng.two(|prng| prng.place(shot.cells.len()));
        let shown = if prng.one_in(2) { other } else { from };
        let sample = shot.cells[shown].sample.clone();
        let to = prng.place(shot.cells.len() + 1);
        let free = free_in_frame(shot);
        if free.is_empty() {
            shot.cells[from].sample = sample;
        } else {
            let [u, v] = free[to % free.len()];
            shot.cells.insert(to, Cell { u, v, sample });
        }
    }
}

/// Boards of 2 by 2, 2 by 3, 3 by 2 and 3 by 3 squares, on which most placements are equal.
pub fn tiny_board(prng: &mut Prng, legacy: bool) -> Shot {
    let size = prng.pick(&[[2, 2], [2, 3], [3, 2], [3, 3]]);
    let scene = Scene::of_board(prng, size, legacy).with_part_seen(prng);
    let look = prng.pick(&[Look::Clear, Look::Noisy, Look::Random]);
    let mut shot = scene.shot(prng, look);
    if prng.one_in(2) {
        prng.pick(&CHANGES)(prng, &mut shot);
    }
    shot
}
