//! `matcher.rs` and `grid_alignment.rs`.

use calib_targets_aruco::{Dictionary, Matcher, rotate_code_u64};
use calib_targets_core::{
    Coord, GRID_TRANSFORMS_C4, cell_rect_corners_at, cell_to_corner_alignment,
};

/// The point after `turn` rotations by 90°, `turn` being 0 to 3.
pub fn turned(turn: u8, [u, v]: [i16; 2]) -> [i32; 2] {
    let point = Coord::new(i32::from(u), i32::from(v));
    let point = GRID_TRANSFORMS_C4[usize::from(turn)].apply(point);
    [point.u, point.v]
}

/// The corner translation that belongs to a cell translation.
pub fn corner_translation(turn: u8, translation: [i16; 2]) -> [i32; 2] {
    let turn = GRID_TRANSFORMS_C4[usize::from(turn)];
    let cells = turn.with_translation(translation.map(i32::from));
    cell_to_corner_alignment(cells).translation()
}

/// The four corners of a cell: top left, top right, bottom right, bottom left.
pub fn cell_rect_corners([u, v]: [i16; 2], px: f32) -> [[f32; 2]; 4] {
    let cell = Coord::new(i32::from(u), i32::from(v));
    cell_rect_corners_at(cell, px).map(|corner| [corner.x, corner.y])
}

pub fn rotate_code(code: u64, side: u8, turn: u8) -> u64 {
    rotate_code_u64(code, usize::from(side), turn)
}

pub struct CodeMatcher(Matcher);

impl CodeMatcher {
    /// The matcher takes a match at any distance.
    pub fn new(codes: &[u64], side: u8) -> Self {
        let dictionary = Dictionary::new(usize::from(side), codes.to_vec().leak());
        Self(Matcher::new(dictionary, u8::MAX))
    }

    /// The code, among several and their rotations, that differs least from one that was read: id, rotation, differing bits.
    pub fn best(&self, read: u64) -> Option<(u32, u8, u32)> {
        let found = self.0.match_code(read)?;
        Some((found.id, found.rotation, found.hamming.into()))
    }
}
