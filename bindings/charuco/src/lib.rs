//! Places a ChArUco board from sampled marker cells: the verified library `libcharuco.a`, called from Rust. Every function accepts every
//! argument. [`words`] has the entry points as in C, over arrays of words. `include/charuco.h` states the fields of a record, the effect of a turn
//! and a translation on a point, and the corners of a cell.
//!
//! The library's results need rounding to nearest and subnormal numbers. Every function sets the default floating-point settings for its call and
//! then restores those of the caller.
//!
//! # Example
//!
//! From a record to numbered corners: every corner of the record's cells serves as a detected corner.
//!
//! ```
//! let record = std::fs::read("../../samples/turned.shot")?;
//! let placed = charuco::match_board(&record)?;
//! assert_eq!((placed.best.alignment.turn, placed.markers.len()), (1, 7));
//!
//! let header = charuco::read_header(&record)?;
//! let codes = (0..header.codes).map_while(|k| charuco::code(&record, k).transpose());
//! let codes: Vec<u64> = codes.collect::<Result<_, _>>()?;
//! let mut corners = vec![];
//! for k in 0..header.cells {
//!     if let Some(charuco::Cell { u, v, .. }) = charuco::cell(&record, k)? {
//!         for point in [[u, v], [u + 1, v], [u + 1, v + 1], [u, v + 1]] {
//!             corners.push(charuco::Corner { score: 1.0, grid: Some(point) });
//!         }
//!     }
//! }
//!
//! let mapped = charuco::map_charuco_corners(&header.spec, &codes, &corners, placed.corners)?;
//! for corner in &mapped {
//!     let point = corners[corner.index].grid;
//!     println!("corner {} is grid point {point:?}, printed at {:?}", corner.id, corner.target);
//! }
//! assert_eq!(mapped.len(), 24);
//!
//! let refusal = charuco::match_board(&std::fs::read("../../samples/blank.shot")?).unwrap_err();
//! assert_eq!(refusal.to_string(), "refused 16: the margin 0.004972501 is below the minimum 0.05");
//! # Ok::<(), Box<dyn std::error::Error>>(())
//! ```

mod answers;
mod floats;
mod refusal;
pub mod words;

pub use answers::{
    Alignment, Cell, Header, Hypothesis, MappedCorner, Marker, MarkerCell, Match, Sample, Violation,
};
pub use refusal::Refusal;
pub use words::BoardSpec;

use words::{
    CELL_WORDS, CORNER_WORDS, HEADER_WORDS, MARKER_CELL_WORDS, MARKER_WORDS, MATCH_WORDS,
    MAX_BOARD_CORNERS, MAX_CELLS, MAX_LINKS, VIOLATION_WORDS, VIOLATIONS_PER_LINK,
};

/// A detected corner: its score, and its grid point if it has one.
#[derive(Clone, Copy, Debug, PartialEq)]
pub struct Corner {
    pub score: f32,
    pub grid: Option<[i32; 2]>,
}

#[derive(Clone, Copy, Debug, PartialEq, Eq)]
pub enum LinkCheckMode {
    SubsetOk,
    MustMatchAll4,
}

/// The words of a result, or the refusal. No result has more words than a match.
fn told<const N: usize>(ask: impl FnOnce(&mut [u32]) -> u32) -> Result<[u32; N], Refusal> {
    let mut values = [0; MATCH_WORDS];
    match ask(&mut values) {
        0 => Ok(std::array::from_fn(|k| values[k])),
        number => Err(Refusal::new(number, [values[0], values[1]])),
    }
}

/// The first `count` results of an array, with `N` words each.
fn results<W: Copy, T, const N: usize>(
    list: &[W],
    count: usize,
    new: impl Fn([W; N]) -> T,
) -> Vec<T> {
    let chunks = list.as_chunks::<N>().0;
    chunks[..count].iter().map(|&words| new(words)).collect()
}

pub fn read_header(record: &[u8]) -> Result<Header, Refusal> {
    told::<HEADER_WORDS>(|values| words::read_header(record, values)).map(Header::new)
}

/// An entry of the record's likelihood table, or of the built-in one.
pub fn table_entry(record: &[u8], k: usize) -> Result<Option<f32>, Refusal> {
    let [present, bits] = told(|values| words::table_entry(record, k, values))?;
    Ok((present == 1).then(|| f32::from_bits(bits)))
}

pub fn code(record: &[u8], k: usize) -> Result<Option<u64>, Refusal> {
    let [present, low, high] = told(|values| words::code(record, k, values))?;
    Ok((present == 1).then(|| u64::from(high) << 32 | u64::from(low)))
}

pub fn cell(record: &[u8], k: usize) -> Result<Option<Cell>, Refusal> {
    told::<CELL_WORDS>(|values| words::cell(record, k, values)).map(Cell::new)
}

/// The grey levels of a cell, as a slice of the record; empty for an unsampled or absent cell.
pub fn grid(record: &[u8], k: usize) -> Result<&[u8], Refusal> {
    let [start, length] = told(|values| words::grid(record, k, values))?.map(|word| word as usize);
    Ok(&record[start..start + length])
}

fn corner_lists(corners: &[Corner]) -> (Vec<f32>, Vec<i32>) {
    let scores = corners.iter().map(|corner| corner.score).collect();
    let point = |corner: &Corner| corner.grid.map_or([0; 3], |[u, v]| [1, u, v]);
    (scores, corners.iter().flat_map(point).collect())
}

/// The whole cells between the corners whose indices are `inliers`, in row-major order.
pub fn build_marker_cells(
    corners: &[Corner],
    inliers: &[usize],
) -> Result<Vec<MarkerCell>, Refusal> {
    let (scores, grid) = corner_lists(corners);
    let mut cells = vec![0; MAX_CELLS * MARKER_CELL_WORDS];
    let [count] =
        told(|values| words::build_marker_cells(&scores, &grid, inliers, &mut cells, values))?;
    Ok(results(&cells, count as usize, MarkerCell::new))
}

/// Places the board of a shot record. `Ok` means that one placement scores best, not that it is right: see "What a match does not say" in
/// include/charuco.h.
pub fn match_board(record: &[u8]) -> Result<Match, Refusal> {
    matched(record, |markers, values| {
        words::match_board(record, markers, values)
    })
}

/// The same result, from a search that reads scores it has written to `scores`: that of cell k, marker m and turn r is element
/// (k × markers + m) × 4 + r, and 0 for an unsampled cell. The array needs 4 elements for each cell and marker of the board, at most
/// [`words::MAX_SCORES`]; later elements are unchanged. It is also written before the refusals 15, 16 and 17, and is unchanged by all others.
pub fn match_board_with_scores(record: &[u8], scores: &mut [f32]) -> Result<Match, Refusal> {
    matched(record, |markers, values| {
        words::match_board_with_scores(record, scores, markers, values)
    })
}

/// The match that a function writes to the arrays of markers and values.
fn matched(
    record: &[u8],
    ask: impl FnOnce(&mut [u32], &mut [u32]) -> u32,
) -> Result<Match, Refusal> {
    let mut markers = vec![0; MAX_CELLS * MARKER_WORDS];
    let values = told::<MATCH_WORDS>(|values| {
        let number = ask(&mut markers, values);
        if number == 16 {
            // The library returns only the margin; the minimum is in the record.
            let header = told(|values| words::read_header(record, values)).map(Header::new);
            values[1] = header.map_or(0, |header| header.minimum_margin.to_bits());
        }
        number
    })?;
    let markers = results(&markers, Match::count(values), Marker::new);
    Ok(Match::new(values, markers))
}

/// The record of a legacy board in the current layout, written to the start of `sheet`; returns its length, which is that of `record`. With even rows
/// and odd columns the codes of the markers are listed in reverse, each rotated by 180°, and the legacy flag is cleared; with odd rows only the flag
/// is cleared; with even rows and even columns the record is refused. Every other byte stays, also where a match refuses it, and a record without the
/// flag is copied. `sheet` needs as many bytes as `record` has; later bytes are unchanged, and on a refusal all of them.
pub fn restate(record: &[u8], sheet: &mut [u8]) -> Result<usize, Refusal> {
    let [count] = told(|values| words::restate(record, sheet, values))?;
    Ok(count as usize)
}

/// The inner corner of the board for each corner, by increasing id. `alignment` is that of the corners.
pub fn map_charuco_corners(
    spec: &BoardSpec,
    codes: &[u64],
    corners: &[Corner],
    alignment: Alignment,
) -> Result<Vec<MappedCorner>, Refusal> {
    let (scores, grid) = corner_lists(corners);
    let input = words::CornerInput {
        scores: &scores,
        grid: &grid,
        alignment: (alignment.turn, alignment.tx, alignment.ty),
    };
    let mut mapped = vec![0; MAX_BOARD_CORNERS * CORNER_WORDS];
    let [count] =
        told(|values| words::map_charuco_corners(spec, codes, input, &mut mapped, values))?;
    Ok(results(&mapped, count as usize, MappedCorner::new))
}

/// What is wrong with links of markers and corners: pairs of a marker id and a corner id.
pub fn validate_marker_corner_links(
    spec: &BoardSpec,
    codes: &[u64],
    links: &[[u32; 2]],
    mode: LinkCheckMode,
) -> Result<Vec<Violation>, Refusal> {
    let places = VIOLATIONS_PER_LINK * links.len().min(MAX_LINKS);
    let mut violations = vec![0; places * VIOLATION_WORDS];
    let mode = u32::from(mode == LinkCheckMode::MustMatchAll4);
    let [count] = told(|values| {
        words::validate_marker_corner_links(
            spec,
            codes,
            links.as_flattened(),
            mode,
            &mut violations,
            values,
        )
    })?;
    Ok(results(&violations, count as usize, Violation::new))
}
