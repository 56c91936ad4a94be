//! Which placements there are: single cells, cells along the rim, cells that just fit or just do not, far cells, many cells.

use super::points::keep_first;
use super::scene::{Look, Scene};
use cases::corner_lists::{FARTHEST, rectangle};
use cases::prng::Prng;
use records::{Cell, Shot};

pub fn shot(prng: &mut Prng, legacy: bool) -> Shot {
    let kinds: [fn(&mut Prng, bool) -> Shot; 5] = [
        one_cell,
        along_the_rim,
        just_fitting,
        far_off,
        no_marker_seen,
    ];
    prng.pick(&kinds)(prng, legacy)
}

fn any_board(prng: &mut Prng, legacy: bool) -> Scene {
    let most = prng.pick(&[3, 7, 7, 15, 31]);
    let size = prng.two(|prng| 2 + prng.below(most) as u8);
    Scene::of_board(prng, size, legacy)
}

fn any_square(prng: &mut Prng, scene: &Scene) -> [i32; 2] {
    [scene.cols, scene.rows].map(|n| prng.below(u64::from(n)) as i32)
}

fn one_cell(prng: &mut Prng, legacy: bool) -> Shot {
    let mut scene = any_board(prng, legacy);
    scene.squares = vec![any_square(prng, &scene)];
    scene.any_shot(prng)
}

/// Some squares of the rim, among them opposite corners half of the time, so that few translations fit.
fn along_the_rim(prng: &mut Prng, legacy: bool) -> Shot {
    let mut scene = any_board(prng, legacy);
    let last = [scene.cols, scene.rows].map(|n| i32::from(n) - 1);
    if prng.one_in(2) {
        scene.squares = vec![[0, 0], last];
    }
    for _ in 0..1 + prng.below(6) {
        let mut square = any_square(prng, &scene);
        let axis = prng.below(2) as usize;
        square[axis] = prng.pick(&[0, last[axis]]);
        scene.squares.push(square);
    }
    prng.shuffle(&mut scene.squares);
    let mut shot = scene.any_shot(prng);
    keep_first(&mut shot);
    shot
}

/// As wide or as high as the board, or by one more; a board that is not square may take them in two rotations only.
fn just_fitting(prng: &mut Prng, legacy: bool) -> Shot {
    let mut scene = any_board(prng, legacy);
    let [cols, rows] = [scene.cols, scene.rows].map(i32::from);
    let mut size = [cols, rows].map(|n| n - 1 + prng.pick(&[0, 0, 0, 1]));
    if prng.one_in(4) {
        size.reverse();
    }
    let [width, height] = size;
    scene.squares = vec![any_square(prng, &scene), any_square(prng, &scene)];
    let mut shot = scene.any_shot(prng);
    let [u, v] = scene.translation.map(|x| x.clamp(-4000, 4000));
    let corners = [[0, 0], [width, 0], [0, height], [width, height]];
    for [du, dv] in corners.into_iter().take(2 + prng.place(3)) {
        let sample = shot.cells[prng.place(2)].sample.clone();
        let [u, v] = [u + du, v + dv].map(|x| x as i16);
        shot.cells.push(Cell { u, v, sample });
    }
    shot.cells.drain(..2);
    shot
}

/// With cells at the ends of the range.
fn far_off(prng: &mut Prng, legacy: bool) -> Shot {
    let mut scene = any_board(prng, legacy).with_part_seen(prng);
    scene.translation = [0; 2];
    let points: Vec<[i16; 2]> = scene.squares.iter().map(|&s| scene.point(s)).collect();
    let axis = |k: usize| points.iter().map(move |point| i32::from(point[k]));
    let shifts = [0, 1].map(|k| {
        let low = axis(k).min().expect("a cell");
        let high = axis(k).max().expect("a cell");
        prng.pick(&[-FARTHEST - low, FARTHEST - high, 0])
    });
    let mut shot = scene.any_shot(prng);
    for cell in &mut shot.cells {
        cell.u += shifts[0] as i16;
        cell.v += shifts[1] as i16;
    }
    shot
}

/// Every cell lies on a square without a marker, as the true placement has it.
fn no_marker_seen(prng: &mut Prng, legacy: bool) -> Shot {
    let mut scene = any_board(prng, legacy);
    let seen = (0..1 + prng.below(5)).map(|_| any_square(prng, &scene));
    let plain = seen.map(|[i, j]| match scene.code([i, j]) {
        None => [i, j],
        Some(_) => [i, 0],
    });
    scene.squares = plain.collect();
    let mut shot = scene.shot(prng, Look::Noisy);
    keep_first(&mut shot);
    shot
}

/// 250 to 257 cells, on boards where they have few places or many.
pub fn many_cells(prng: &mut Prng, legacy: bool) -> Shot {
    let [rows, cols] = prng.pick(&[[16, 17], [17, 17], [16, 32], [32, 32], [22, 12], [32, 9]]);
    let mut scene = Scene::of_board(prng, [rows, cols], legacy);
    scene.border = 1;
    let all = rectangle([0, 0], [cols.into(), rows.into()]);
    scene.squares = match prng.below(3) {
        0 => all.filter(|&square| scene.code(square).is_some()).collect(),
        1 => all.filter(|&[i, j]| i < 16 && j < 16).collect(),
        _ => all.collect(),
    };
    if prng.one_in(2) {
        prng.shuffle(&mut scene.squares);
    }
    let most = prng.pick(&[250, 255, 256, 256, 256, 257]);
    scene.squares.truncate(most);
    let mut shot = scene.any_shot(prng);
    if prng.one_in(2) {
        shot.set_minimum_margin(0.0);
    }
    shot
}
