//! Cells at the same position (document 02, 2.3), which are refused by 23 though upstream places them; and points that are
//! nearly equal, which are not.

use super::Given;
use super::faults::with_faults;
use super::points::is_free;
use super::scene::Scene;
use cases::corner_lists::{FARTHEST, rectangle};
use cases::floats::NORMAL;
use cases::prng::Prng;
use records::{Cell, Sample, Shot, settings};

const MOST_CELLS: usize = 256;

type Change = fn(&mut Prng, &mut Shot);

/// One repeated cell comes up most.
const CHANGES: [Change; 9] = [
    side_by_side,
    side_by_side,
    first_and_last,
    anywhere,
    anywhere,
    three_at_one_point,
    moved_onto_another,
    every_cell_twice,
    all_at_one_point,
];

/// Half of the time with a minimum margin that no margin is below, a quarter of the time with one fault more, of any check.
pub fn given(prng: &mut Prng, legacy: bool) -> Given {
    let mut shot;
    if prng.one_in(200) {
        shot = most_cells_but_one(prng, legacy);
        let change: Change = prng.pick(&[first_and_last, anywhere]);
        change(prng, &mut shot);
    } else {
        shot = Scene::random(prng, legacy).any_shot(prng);
        prng.pick(&CHANGES)(prng, &mut shot);
    }
    if shot.map & settings::MINIMUM_MARGIN == 0 && prng.one_in(2) {
        shot.set_minimum_margin(prng.pick(&[0.0, -0.0, -1.0, NORMAL]));
    }
    let faults = usize::from(prng.one_in(4));
    with_faults(prng, shot, faults)
}

/// 255 cells in any order.
fn most_cells_but_one(prng: &mut Prng, legacy: bool) -> Shot {
    let [rows, cols] = prng.pick(&[[16, 17], [17, 16], [22, 12], [9, 32], [32, 32]]);
    let mut scene = Scene::of_board(prng, [rows, cols], legacy);
    scene.border = 1;
    scene.squares = rectangle([0, 0], [cols.into(), rows.into()]).collect();
    prng.shuffle(&mut scene.squares);
    scene.squares.truncate(MOST_CELLS - 1);
    scene.any_shot(prng)
}

/// Files the cell at `from` once more, before the cell at `to`. Each of the two is sampled or not.
fn file_again(prng: &mut Prng, shot: &mut Shot, from: usize, to: usize) {
    let mut cell = shot.cells[from].clone();
    cell.sample = match prng.below(4) {
        0 => None,
        1 => any_sample(prng, shot),
        _ => cell.sample,
    };
    if prng.one_in(4) {
        shot.cells[from].sample = None;
    }
    shot.cells.insert(to, cell);
}

fn any_sample(prng: &mut Prng, shot: &Shot) -> Option<Sample> {
    shot.cells[prng.place(shot.cells.len())].sample.clone()
}

fn side_by_side(prng: &mut Prng, shot: &mut Shot) {
    let from = prng.place(shot.cells.len());
    let to = from + prng.place(2);
    file_again(prng, shot, from, to);
}

fn first_and_last(prng: &mut Prng, shot: &mut Shot) {
    let count = shot.cells.len();
    let [from, to] = prng.pick(&[[0, count], [count - 1, 0]]);
    file_again(prng, shot, from, to);
}

fn anywhere(prng: &mut Prng, shot: &mut Shot) {
    let count = shot.cells.len();
    let [from, to] = [prng.place(count), prng.place(count + 1)];
    file_again(prng, shot, from, to);
}

fn three_at_one_point(prng: &mut Prng, shot: &mut Shot) {
    let count = shot.cells.len();
    let from = prng.place(count);
    file_again(prng, shot, from, count);
    let to = from + 1 + prng.place(count + 1 - from);
    file_again(prng, shot, from, to);
}

/// So the cells may fit where they did not before.
fn moved_onto_another(prng: &mut Prng, shot: &mut Shot) {
    let count = shot.cells.len();
    if count == 1 {
        return anywhere(prng, shot);
    }
    let onto = prng.place(count);
    let moved = (onto + 1 + prng.place(count - 1)) % count;
    let Cell { u, v, .. } = shot.cells[onto];
    [shot.cells[moved].u, shot.cells[moved].v] = [u, v];
}

/// Side by side, or the whole list after the list.
fn every_cell_twice(prng: &mut Prng, shot: &mut Shot) {
    let mut twice = [&shot.cells[..], &shot.cells[..]].concat();
    if prng.one_in(2) {
        twice.sort_by_key(|cell| [cell.u, cell.v]);
    }
    shot.cells = twice;
}

fn all_at_one_point(prng: &mut Prng, shot: &mut Shot) {
    let Cell { u, v, .. } = shot.cells[0];
    for cell in &mut shot.cells {
        [cell.u, cell.v] = [u, v];
    }
    anywhere(prng, shot);
}

/// Points that a careless comparison takes for (u, v): one coordinate is equal, they are exchanged, negated, complements, or equal
/// in their lowest bits, or u and v together make the same number.
fn nearly_alike(prng: &mut Prng, [u, v]: [i32; 2]) -> [i32; 2] {
    let step = prng.pick(&[1, 1, 1, 2, 2, 3, 16, 32, 64, 256, 4096, 8192]);
    let step = if prng.one_in(2) { -step } else { step };
    let far = [[u + step, v], [u, v + step], [u + step, v - step]];
    let as_one_number = [[u + 1, v - step], [u - 1, v - step], [u - step, v + 1]];
    let turned = [[v, u], [-u, -v], [-u, v], [u, -v], [-v, u], [v, -u]];
    let complements = [[!u, v], [u, !v], [!u, !v], [!v, !u]];
    match prng.below(4) {
        0 => prng.pick(&far),
        1 => prng.pick(&as_one_number),
        2 => prng.pick(&turned),
        _ => prng.pick(&complements),
    }
}

/// Pairs at which a number of too few bits, or of a sign that is carried over, is the same.
const PAIRS: [[[i32; 2]; 2]; 7] = [
    [[-FARTHEST, 0], [FARTHEST, 0]],
    [[0, -FARTHEST], [0, FARTHEST]],
    [[0, FARTHEST], [1, -FARTHEST]],
    [[FARTHEST, 0], [-FARTHEST, 1]],
    [[0, -1], [-1, -1]],
    [[-1, 0], [-1, -1]],
    [[0, -1], [-1, 0]],
];

/// Around the origin, so that many of the points lie close together.
pub fn nearly(prng: &mut Prng, legacy: bool) -> Shot {
    let size = prng.two(|prng| 4 + prng.below(17) as u8);
    let mut scene = Scene::of_board(prng, size, legacy).with_part_seen(prng);
    let square = prng.pick(&scene.squares);
    scene.translation = square.map(|x| x + prng.below(5) as i32 - 2);
    let mut shot = scene.any_shot(prng);
    let points = if prng.one_in(8) {
        prng.pick(&PAIRS).to_vec()
    } else {
        let Cell { u, v, .. } = shot.cells[prng.place(shot.cells.len())];
        let point = [u, v].map(i32::from);
        let count = prng.pick(&[1, 2, 3]);
        prng.many(count, |prng| nearly_alike(prng, point))
    };
    for point in points {
        file_if_free(prng, &mut shot, point);
    }
    shot
}

/// At any place of the list, sampled or not, unless the point is out of range or has a cell.
fn file_if_free(prng: &mut Prng, shot: &mut Shot, point: [i32; 2]) {
    let is_in_range = point.iter().all(|x| (-FARTHEST..=FARTHEST).contains(x));
    let [u, v] = point.map(|x| x as i16);
    if is_in_range && is_free(shot, [u, v]) {
        let sample = any_sample(prng, shot).filter(|_| prng.one_in(2));
        let to = prng.place(shot.cells.len() + 1);
        shot.cells.insert(to, Cell { u, v, sample });
    }
}
