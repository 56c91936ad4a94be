//! The layout of every board from 2 by 2 to 32 by 32, without the legacy flag and with it.

use crate::subject::{Subject, Subjects, of_legacy_boards};
use cases::floats::{GOOD_CELL_SIZES, float_bits};
use cases::layout::{coordinates, ids, sizes};
use differential::ours;

pub fn compare() -> Vec<Subject> {
    [compare_all(false), of_legacy_boards(compare_all(true))].concat()
}

fn compare_all(legacy: bool) -> Vec<Subject> {
    let mut subjects = Subjects::default();
    for [rows, cols] in sizes() {
        let ours = ours::Board { rows, cols, legacy };
        let theirs = theirs::Board::new(rows, cols, legacy, 1.0);
        compare_places(&mut subjects, &ours, &theirs);
        compare_ids(&mut subjects, &ours, &theirs);
        for cell_size in GOOD_CELL_SIZES {
            compare_points(&mut subjects, &ours, cell_size);
        }
    }
    subjects.0
}

fn compare_places(subjects: &mut Subjects, ours: &ours::Board, theirs: &theirs::Board) {
    let ours::Board { rows, cols, .. } = *ours;
    for [i, j] in coordinates(rows, cols) {
        let asked = format_args!("{rows} rows, {cols} cols, i {i}, j {j}");
        let markers = subjects.of("marker id at a square");
        markers.check(ours.marker_id_at(i, j), theirs.marker_id_at(i, j), asked);
        let corners = subjects.of("corner id at a board corner");
        corners.check(ours.corner_id(i, j), theirs.corner_id(i, j), asked);
    }
}

fn compare_ids(subjects: &mut Subjects, ours: &ours::Board, theirs: &theirs::Board) {
    let ours::Board { rows, cols, .. } = *ours;
    let asked = format_args!("{rows} rows, {cols} cols");
    let count = subjects.of("marker count");
    count.check(ours.marker_count(), theirs.marker_count(), asked);
    for id in ids(theirs.marker_count() as u32) {
        let asked = format_args!("{rows} rows, {cols} cols, marker {id}");
        let squares = subjects.of("square of a marker id");
        squares.check(ours.marker_position(id), theirs.marker_position(id), asked);
        let four = theirs.surrounding_corners(id);
        let four = four.map_or([None; 4], |four| four.map(Some));
        let around = subjects.of("corners around a marker");
        around.check(ours.surrounding_corners(id), four, asked);
    }
    for id in ids(theirs.corner_count() as u32) {
        let asked = format_args!("{rows} rows, {cols} cols, corner {id}");
        let corners = subjects.of("board corner of a corner id");
        corners.check(ours.corner_position(id), theirs.corner_position(id), asked);
    }
}

/// An id without a point is NaN and NaN.
fn compare_points(subjects: &mut Subjects, ours: &ours::Board, cell_size: f32) {
    let ours::Board { rows, cols, legacy } = *ours;
    let theirs = theirs::Board::new(rows, cols, legacy, cell_size);
    let points = subjects.of("object point of a corner id, bit pattern");
    for id in ids(theirs.corner_count() as u32) {
        let asked = format_args!("{rows} rows, {cols} cols, cell size {cell_size:e}, corner {id}");
        let point = theirs.object_xy(id).unwrap_or([f32::NAN; 2]);
        let [ours, theirs] = [ours.object_xy(cell_size, id), point];
        points.check(ours.map(float_bits), theirs.map(float_bits), asked);
    }
}
