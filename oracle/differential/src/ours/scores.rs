//! The likelihood table and the scores of a cell.

use cases::cells::Cell;

unsafe extern "C" {
    /// An entry of the built-in table.
    #[link_name = "oracle_table_entry"]
    pub safe fn table_entry(i: usize) -> f32;
    #[link_name = "oracle_cell_weight"]
    pub safe fn cell_weight(
        border_threshold: f32,
        least_weight: f32,
        sampled: bool,
        fraction: f32,
    ) -> f32;
    #[link_name = "oracle_null_score"]
    pub safe fn null_score(bits: u8) -> f32;
    #[link_name = "oracle_evidence"]
    pub safe fn evidence(score: f32, bits: u8) -> f32;

    fn oracle_is_table(table: *const f32, len: usize) -> u8;
    fn oracle_score(
        table: *const [f32; 511],
        grid: *const u8,
        grid_len: usize,
        threshold: u8,
        bits: u8,
        border: u8,
        code: u64,
    ) -> f32;
    fn oracle_cell_scores(
        table: *const [f32; 511],
        grid: *const u8,
        grid_len: usize,
        threshold: u8,
        bits: u8,
        border: u8,
        codes: *const u64,
        n_codes: usize,
        out: *mut f32,
        out_len: usize,
    );
    fn oracle_read_code(
        grid: *const u8,
        grid_len: usize,
        threshold: u8,
        bits: u8,
        border: u8,
    ) -> u64;
}

// SAFETY, below: each pointer and the length behind it are those of one slice. The functions only read them, but for `out`,
// which no other function uses meanwhile.

pub fn is_table(entries: &[f32]) -> bool {
    unsafe { oracle_is_table(entries.as_ptr(), entries.len()) == 1 }
}

/// The code is already rotated.
pub fn score(table: &[f32; 511], cell: &Cell, code: u64) -> f32 {
    unsafe {
        oracle_score(
            table,
            cell.grid.as_ptr(),
            cell.grid.len(),
            cell.threshold,
            cell.bits,
            cell.border,
            code,
        )
    }
}

/// A score for each code, which is already rotated.
pub fn cell_scores(table: &[f32; 511], cell: &Cell, codes: &[u64], out: &mut [f32]) {
    assert_eq!(codes.len(), out.len());
    unsafe {
        oracle_cell_scores(
            table,
            cell.grid.as_ptr(),
            cell.grid.len(),
            cell.threshold,
            cell.bits,
            cell.border,
            codes.as_ptr(),
            codes.len(),
            out.as_mut_ptr(),
            out.len(),
        );
    }
}

pub fn read_code(cell: &Cell) -> u64 {
    unsafe {
        oracle_read_code(
            cell.grid.as_ptr(),
            cell.grid.len(),
            cell.threshold,
            cell.bits,
            cell.border,
        )
    }
}
