//! The C functions of include/charuco.h over slices of words: each returns 0 or the error number, and accepts slices of every length. Each runs with
//! the default floating-point settings, whatever those of the caller are.

use crate::floats::with_default;

// BEGIN generated constants
// Words in `values`.
pub const HEADER_WORDS: usize = 14;
pub const TABLE_ENTRY_WORDS: usize = 2;
pub const CODE_WORDS: usize = 3;
pub const CELL_WORDS: usize = 5;
pub const GRID_WORDS: usize = 2;
pub const MATCH_WORDS: usize = 19;
pub const COUNT_WORDS: usize = 1;
pub const REFUSAL_WORDS: usize = 2; // at most

// Words of an item of an array.
pub const GRID_POINT_WORDS: usize = 3;
pub const MARKER_CELL_WORDS: usize = 6;
pub const MARKER_WORDS: usize = 18;
pub const CORNER_WORDS: usize = 6;
pub const LINK_WORDS: usize = 2;
pub const VIOLATION_WORDS: usize = 12;

// Limits and their checks.
pub const MAX_RECORD_BYTES: usize = 65535; // 21
pub const MAX_CELLS: usize = 256; // 12, 20
pub const MAX_SCORES: usize = 524288; // follows from 6, 12
pub const MAX_CORNERS: usize = 1024; // 18
pub const MAX_CODES: usize = 1024; // 6
pub const MAX_LINKS: usize = 4096; // 19
pub const MAX_BOARD_CORNERS: usize = 961; // follows from 6
pub const VIOLATIONS_PER_LINK: usize = 3; // 14
pub const MAX_RECORD_CODES: usize = 8189; // follows from 21
pub const MAX_RECORD_CELLS: usize = 15883; // follows from 21
// END generated constants

/// The board, as [`map_charuco_corners`] and [`validate_marker_corner_links`] take it.
#[derive(Clone, Copy, Debug, PartialEq)]
pub struct BoardSpec {
    pub rows: u32,
    pub cols: u32,
    pub bits: u32,
    pub border_bits: u32,
    /// A board from before OpenCV 4.6: with an even row count its markers are on the squares with i + j even.
    pub legacy_pattern: bool,
    pub cell_size: f32,
    pub marker_size_rel: f32,
}

type Reader = unsafe extern "C" fn(*const u8, usize, usize, *mut u32, usize) -> u32;

unsafe extern "C" {
    fn charuco_read_header(bytes: *const u8, n: usize, values: *mut u32, n_values: usize) -> u32;
    fn charuco_table_entry(
        bytes: *const u8,
        n: usize,
        k: usize,
        values: *mut u32,
        n_values: usize,
    ) -> u32;
    fn charuco_code(bytes: *const u8, n: usize, k: usize, values: *mut u32, n_values: usize)
    -> u32;
    fn charuco_cell(bytes: *const u8, n: usize, k: usize, values: *mut u32, n_values: usize)
    -> u32;
    fn charuco_grid(bytes: *const u8, n: usize, k: usize, values: *mut u32, n_values: usize)
    -> u32;
    fn charuco_build_marker_cells(
        scores: *const f32,
        n_scores: usize,
        grid: *const i32,
        n_grid: usize,
        inliers: *const usize,
        n_inliers: usize,
        cells: *mut i32,
        n_cells: usize,
        values: *mut u32,
        n_values: usize,
    ) -> u32;
    fn charuco_match_board(
        bytes: *const u8,
        n: usize,
        markers: *mut u32,
        n_markers: usize,
        values: *mut u32,
        n_values: usize,
    ) -> u32;
    fn charuco_match_board_with_scores(
        bytes: *const u8,
        n: usize,
        scores: *mut f32,
        n_scores: usize,
        markers: *mut u32,
        n_markers: usize,
        values: *mut u32,
        n_values: usize,
    ) -> u32;
    fn charuco_restate(
        bytes: *const u8,
        n: usize,
        sheet: *mut u8,
        n_sheet: usize,
        values: *mut u32,
        n_values: usize,
    ) -> u32;
    fn charuco_map_charuco_corners(
        rows: u32,
        cols: u32,
        bits: u32,
        border_bits: u32,
        legacy_pattern: u32,
        cell_size: f32,
        marker_size_rel: f32,
        codes: *const u64,
        n_codes: usize,
        scores: *const f32,
        n_scores: usize,
        grid: *const i32,
        n_grid: usize,
        turn: u32,
        tx: i32,
        ty: i32,
        corners: *mut u32,
        n_corners: usize,
        values: *mut u32,
        n_values: usize,
    ) -> u32;
    fn charuco_validate_marker_corner_links(
        rows: u32,
        cols: u32,
        bits: u32,
        border_bits: u32,
        legacy_pattern: u32,
        cell_size: f32,
        marker_size_rel: f32,
        codes: *const u64,
        n_codes: usize,
        links: *const u32,
        n_links: usize,
        mode: u32,
        violations: *mut u32,
        n_violations: usize,
        values: *mut u32,
        n_values: usize,
    ) -> u32;
}

// SAFETY, in every function below: each pointer and the length after it are those of one slice, so it is valid, aligned and not null.
// A `&mut` slice overlaps nothing else. The C functions read and write within these lengths and keep no pointer.

pub fn read_header(record: &[u8], values: &mut [u32]) -> u32 {
    with_default(|| unsafe {
        charuco_read_header(
            record.as_ptr(),
            record.len(),
            values.as_mut_ptr(),
            values.len(),
        )
    })
}

fn read_at(reader: Reader, record: &[u8], k: usize, values: &mut [u32]) -> u32 {
    with_default(|| unsafe {
        reader(
            record.as_ptr(),
            record.len(),
            k,
            values.as_mut_ptr(),
            values.len(),
        )
    })
}

pub fn table_entry(record: &[u8], k: usize, values: &mut [u32]) -> u32 {
    read_at(charuco_table_entry, record, k, values)
}

pub fn code(record: &[u8], k: usize, values: &mut [u32]) -> u32 {
    read_at(charuco_code, record, k, values)
}

pub fn cell(record: &[u8], k: usize, values: &mut [u32]) -> u32 {
    read_at(charuco_cell, record, k, values)
}

pub fn grid(record: &[u8], k: usize, values: &mut [u32]) -> u32 {
    read_at(charuco_grid, record, k, values)
}

pub fn build_marker_cells(
    scores: &[f32],
    grid: &[i32],
    inliers: &[usize],
    cells: &mut [i32],
    values: &mut [u32],
) -> u32 {
    with_default(|| unsafe {
        charuco_build_marker_cells(
            scores.as_ptr(),
            scores.len(),
            grid.as_ptr(),
            grid.len(),
            inliers.as_ptr(),
            inliers.len(),
            cells.as_mut_ptr(),
            cells.len(),
            values.as_mut_ptr(),
            values.len(),
        )
    })
}

pub fn match_board(record: &[u8], markers: &mut [u32], values: &mut [u32]) -> u32 {
    with_default(|| unsafe {
        charuco_match_board(
            record.as_ptr(),
            record.len(),
            markers.as_mut_ptr(),
            markers.len(),
            values.as_mut_ptr(),
            values.len(),
        )
    })
}

pub fn match_board_with_scores(
    record: &[u8],
    scores: &mut [f32],
    markers: &mut [u32],
    values: &mut [u32],
) -> u32 {
    with_default(|| unsafe {
        charuco_match_board_with_scores(
            record.as_ptr(),
            record.len(),
            scores.as_mut_ptr(),
            scores.len(),
            markers.as_mut_ptr(),
            markers.len(),
            values.as_mut_ptr(),
            values.len(),
        )
    })
}

pub fn restate(record: &[u8], sheet: &mut [u8], values: &mut [u32]) -> u32 {
    with_default(|| unsafe {
        charuco_restate(
            record.as_ptr(),
            record.len(),
            sheet.as_mut_ptr(),
            sheet.len(),
            values.as_mut_ptr(),
            values.len(),
        )
    })
}

/// The detected corners, and their alignment: turn, tx, ty.
#[derive(Clone, Copy)]
pub struct CornerInput<'a> {
    pub scores: &'a [f32],
    pub grid: &'a [i32],
    pub alignment: (u32, i32, i32),
}

pub fn map_charuco_corners(
    spec: &BoardSpec,
    codes: &[u64],
    input: CornerInput,
    corners: &mut [u32],
    values: &mut [u32],
) -> u32 {
    let (turn, tx, ty) = input.alignment;
    with_default(|| unsafe {
        charuco_map_charuco_corners(
            spec.rows,
            spec.cols,
            spec.bits,
            spec.border_bits,
            spec.legacy_pattern.into(),
            spec.cell_size,
            spec.marker_size_rel,
            codes.as_ptr(),
            codes.len(),
            input.scores.as_ptr(),
            input.scores.len(),
            input.grid.as_ptr(),
            input.grid.len(),
            turn,
            tx,
            ty,
            corners.as_mut_ptr(),
            corners.len(),
            values.as_mut_ptr(),
            values.len(),
        )
    })
}

pub fn validate_marker_corner_links(
    spec: &BoardSpec,
    codes: &[u64],
    links: &[u32],
    mode: u32,
    violations: &mut [u32],
    values: &mut [u32],
) -> u32 {
    with_default(|| unsafe {
        charuco_validate_marker_corner_links(
            spec.rows,
            spec.cols,
            spec.bits,
            spec.border_bits,
            spec.legacy_pattern.into(),
            spec.cell_size,
            spec.marker_size_rel,
            codes.as_ptr(),
            codes.len(),
            links.as_ptr(),
            links.len(),
            mode,
            violations.as_mut_ptr(),
            violations.len(),
            values.as_mut_ptr(),
            values.len(),
        )
    })
}
