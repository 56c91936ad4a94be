//! Rotations by 90°, corner translations and the corners of a cell.

use crate::subject::Subject;
use cases::codes::TURNS;
use cases::floats::{NOT_FINITE, PIXELS, float_bits, random_finite};
use cases::points::{random_point, telling_points};
use cases::prng::Prng;
use differential::ours;

const RANDOM_POINTS: usize = 100_000;

pub fn compare() -> Vec<Subject> {
    let mut prng = Prng::new(3);
    let mut points: Vec<[i16; 2]> = telling_points().collect();
    points.extend(prng.many(RANDOM_POINTS, random_point));
    let for_each_turn = |name: &str, ours: OnPoint, theirs: OnPoint| {
        let mut subject = Subject::new(name);
        for &point in &points {
            for turn in TURNS {
                let asked = format_args!("turn {turn}, {point:?}");
                subject.check(ours(turn, point), theirs(turn, point), asked);
            }
        }
        subject
    };
    let top_left = "corner that a rotation moves to the top left";
    vec![
        for_each_turn("rotated point", ours::turned, theirs::turned),
        for_each_turn(
            "corner translation",
            ours::corner_translation,
            theirs::corner_translation,
        ),
        for_each_turn(
            top_left,
            ours::rotate_gc_top_left,
            theirs::rotate_gc_top_left,
        ),
        cell_corners(&points, &mut prng),
    ]
}

type OnPoint = fn(u8, [i16; 2]) -> [i32; 2];

/// Special cells with special sizes, then every cell with a size of its own.
fn cell_corners(points: &[[i16; 2]], prng: &mut Prng) -> Subject {
    let mut subject = Subject::new("corners of a cell, bit pattern");
    let mut check = |cell, px: f32| {
        let both = [
            ours::cell_rect_corners(cell, px),
            theirs::cell_rect_corners(cell, px),
        ];
        let [ours, theirs] = both.map(|corners| corners.map(|corner| corner.map(float_bits)));
        subject.check(ours, theirs, format_args!("cell {cell:?}, {px:e} pixels"));
    };
    for px in PIXELS.into_iter().chain(NOT_FINITE) {
        telling_points().for_each(|cell| check(cell, px));
    }
    for &cell in points {
        check(cell, random_finite(prng));
    }
    subject
}
