//! How long this library and upstream take for a whole match, and how much memory: `bench_match`, or `bench_match
//! ours|second|theirs|all ROUNDS [CASE]`. `second` is this library's match with scores.

use cases::corner_lists::rectangle;
use differential::bench::{Bench, Board, WholeMatch, heap, seen};
use std::process::ExitCode;

#[global_allocator]
static HEAP: heap::Counting = heap::Counting;

fn main() -> ExitCode {
    let cases = CASES.map(|(board, size)| (name(board, size), case(board, size)));
    Bench::with_memory("bench_match", "match").run(cases.into())
}

/// Columns and rows of the block of squares that is seen.
type Size = [i32; 2];

/// No match has more cells.
const MOST_CELLS: i32 = 256;

/// The last three are unfavourable to this library's match without scores. A block as wide as the board has one column or one row of placements in
/// each rotation, so that few scores are computed side by side. With 3 by 3 bits what is done once for each score weighs
/// most; there are 140 such codes of which no two are equal up to rotation, and 136 markers on 16 rows and 17 columns. Cells
/// that need the whole board have 4 placements, so that reading the most cells and making the checks of them weighs most.
const CASES: [(Board, Size); 15] = [
    (([5, 7], 4), [5, 4]),
    (([5, 7], 4), [4, 4]),
    (([5, 7], 4), [5, 3]),
    (([12, 9], 4), [5, 10]),
    (([12, 9], 6), [5, 10]),
    (([12, 9], 4), [4, 4]),
    (([32, 32], 4), [16, 16]),
    (([32, 32], 6), [16, 16]),
    (([32, 32], 8), [16, 16]),
    (([32, 32], 4), [4, 4]),
    (([32, 32], 4), [1, 1]),
    (([32, 32], 6), [1, 1]),
    (([32, 32], 4), [32, 8]),
    (([16, 17], 3), [8, 8]),
    (([32, 32], 4), [32, 32]),
];

fn name(([rows, cols], bits): Board, [width, height]: Size) -> String {
    let cells = (width * height).min(MOST_CELLS);
    format!(
        "{rows} rows and {cols} columns, {bits} by {bits} bits, {cells} cells, {width} by {height}"
    )
}

/// A part from the middle of the board. A single square there holds a marker. Of a block with too many squares whole rows are
/// seen, as many as there may be, from its first to its last, evenly apart.
fn case(([rows, cols], bits): Board, [width, height]: Size) -> WholeMatch {
    let left = (i32::from(cols) - width + 1) / 2;
    let top = (i32::from(rows) - height) / 2;
    let seen_rows = height.min(MOST_CELLS / width);
    let apart = |k: i32| k * (height - 1) / (seen_rows - 1).max(1);
    let squares = rectangle([0, 0], [width, seen_rows]).map(|[i, k]| [left + i, top + apart(k)]);
    WholeMatch::new(seen(([rows, cols], bits), squares.collect()))
}
