//! Parts of this library that its C functions do not show by themselves: the functions that `oracle_exports` exports for
//! tests, and safe functions over them in the shapes of the crate `theirs`.

pub mod scores;

// Every function is total: it accepts every number. So those that take numbers only are safe to call.
unsafe extern "C" {
    #[link_name = "oracle_rotate_code_u64"]
    pub safe fn rotate_code(code: u64, side: u8, turn: u8) -> u64;
    #[link_name = "oracle_differing_bits"]
    pub safe fn differing_bits(a: u64, b: u64) -> u32;

    safe fn oracle_turned(turn: u8, u: i16, v: i16, axis: u8) -> i32;
    safe fn oracle_rotate_gc_top_left(turn: u8, u: i16, v: i16, axis: u8) -> i32;
    safe fn oracle_corner_translation(turn: u8, tx: i16, ty: i16, axis: u8) -> i32;
    safe fn oracle_cell_rect_corner(u: i16, v: i16, px: f32, corner: u8, axis: u8) -> f32;

    safe fn oracle_marker_count(rows: u8, cols: u8, legacy: u32) -> u64;
    safe fn oracle_marker_id_at(rows: u8, cols: u8, legacy: u32, i: i32, j: i32) -> u64;
    safe fn oracle_marker_position(rows: u8, cols: u8, legacy: u32, id: u32) -> u64;
    safe fn oracle_corner_id(rows: u8, cols: u8, legacy: u32, i: i32, j: i32) -> u64;
    safe fn oracle_corner_position(rows: u8, cols: u8, legacy: u32, id: u32) -> u64;
    safe fn oracle_object_xy(
        rows: u8,
        cols: u8,
        legacy: u32,
        cell_size: f32,
        id: u32,
        axis: u8,
    ) -> f32;
    safe fn oracle_surrounding_corner(
        rows: u8,
        cols: u8,
        legacy: u32,
        marker: u32,
        corner: u8,
    ) -> u64;
}

pub fn turned(turn: u8, [u, v]: [i16; 2]) -> [i32; 2] {
    [0, 1].map(|axis| oracle_turned(turn, u, v, axis))
}

pub fn rotate_gc_top_left(turn: u8, [u, v]: [i16; 2]) -> [i32; 2] {
    [0, 1].map(|axis| oracle_rotate_gc_top_left(turn, u, v, axis))
}

pub fn corner_translation(turn: u8, [tx, ty]: [i16; 2]) -> [i32; 2] {
    [0, 1].map(|axis| oracle_corner_translation(turn, tx, ty, axis))
}

pub fn cell_rect_corners([u, v]: [i16; 2], px: f32) -> [[f32; 2]; 4] {
    [0, 1, 2, 3].map(|corner| [0, 1].map(|axis| oracle_cell_rect_corner(u, v, px, corner, axis)))
}

/// A board by its size and legacy flag, which is all that the layout depends on.
pub struct Board {
    pub rows: u8,
    pub cols: u8,
    pub legacy: bool,
}

impl Board {
    fn mark(&self) -> u32 {
        self.legacy.into()
    }

    pub fn marker_count(&self) -> u64 {
        oracle_marker_count(self.rows, self.cols, self.mark())
    }

    pub fn marker_id_at(&self, i: i32, j: i32) -> Option<u64> {
        present(oracle_marker_id_at(self.rows, self.cols, self.mark(), i, j))
    }

    pub fn marker_position(&self, id: u32) -> Option<[u64; 2]> {
        present(oracle_marker_position(
            self.rows,
            self.cols,
            self.mark(),
            id,
        ))
        .map(column_and_row)
    }

    pub fn corner_id(&self, i: i32, j: i32) -> Option<u64> {
        present(oracle_corner_id(self.rows, self.cols, self.mark(), i, j))
    }

    pub fn corner_position(&self, id: u32) -> Option<[u64; 2]> {
        present(oracle_corner_position(
            self.rows,
            self.cols,
            self.mark(),
            id,
        ))
        .map(column_and_row)
    }

    /// Both are NaN where the id is unknown.
    pub fn object_xy(&self, cell_size: f32, id: u32) -> [f32; 2] {
        [0, 1].map(|axis| oracle_object_xy(self.rows, self.cols, self.mark(), cell_size, id, axis))
    }

    /// Each of the four by itself: the library answers for one corner at a time.
    pub fn surrounding_corners(&self, marker: u32) -> [Option<u64>; 4] {
        [0, 1, 2, 3].map(|corner| {
            present(oracle_surrounding_corner(
                self.rows,
                self.cols,
                self.mark(),
                marker,
                corner,
            ))
        })
    }
}

/// The library returns the largest number for none.
fn present(answer: u64) -> Option<u64> {
    (answer != u64::MAX).then_some(answer)
}

fn column_and_row(packed: u64) -> [u64; 2] {
    [packed % 65_536, packed / 65_536]
}
