//! The points of a shot's cells, of which no two are equal unless that is meant.

use cases::corner_lists::rectangle;
use records::{Cell, Shot};

pub fn is_free(shot: &Shot, [u, v]: [i16; 2]) -> bool {
    shot.cells.iter().all(|cell| [cell.u, cell.v] != [u, v])
}

/// Of the cells at the same position the first stays.
pub fn keep_first(shot: &mut Shot) {
    let all = std::mem::take(&mut shot.cells);
    for cell in all {
        if is_free(shot, [cell.u, cell.v]) {
            shot.cells.push(cell);
        }
    }
}

/// The points without a cell in the frame of the cells, row by row.
pub fn free_in_frame(shot: &Shot) -> Vec<[i16; 2]> {
    let ends = |along: fn(&Cell) -> i16| {
        let along = || shot.cells.iter().map(along);
        let [low, high] = [along().min(), along().max()].map(|end| end.expect("a cell"));
        [low, high].map(i32::from)
    };
    let [[left, right], [top, bottom]] = [ends(|cell| cell.u), ends(|cell| cell.v)];
    let frame = rectangle([left, top], [right - left + 1, bottom - top + 1]);
    let points = frame.map(|point| point.map(|x| x as i16));
    points.filter(|&point| is_free(shot, point)).collect()
}
