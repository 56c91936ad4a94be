//! Matches of records with many codes: check 8 covers all of them, up to 1,024, and check 22 those of markers, up to 512.

use crate::covered::{ALIKE_AT, TOO_LARGE_AT};
use crate::matches::{ask_all, with_cells, with_places};
use crate::script::Script;
use cases::boards::Pair;
use cases::cells::Cell as Grid;
use cases::codes::{all_ones, listed_codes};
use matches::given::Given;
use records::{Cell, Sample, Shot};

const MOST_CODES: usize = 1024;
const MOST_MARKERS: usize = 512;

pub fn ask(script: &mut Script) {
    // The first number that is too large, one by its highest bit, and the largest that is not.
    let of_8 = TOO_LARGE_AT.into_iter().flat_map(|place| {
        let largest = all_ones(with_code(place, 0).bits);
        [largest + 1, 1 << 63, largest].map(|code| with_code(place, code))
    });
    let of_22 = (1..).zip(ALIKE_AT).map(|(turn, (places, _))| {
        let mut shot = of_largest_board(MOST_MARKERS.max(places[1] + 1));
        let turn = turn % 4;
        Pair { places, turn }.plant(&mut shot.codes, shot.bits);
        shot
    });
    let none_alike = of_largest_board(MOST_MARKERS);
    let shots = of_8.chain(of_22).chain([none_alike]);
    let chosen: Vec<Given> = shots.map(with_places).collect();
    ask_all(script, &chosen);
}

/// The board of document 01, which has two markers, with as many codes as there may be: 0, but for its markers' and one more. Equal
/// bytes make short rows.
fn with_code(place: usize, code: u64) -> Shot {
    let mut shot = with_cells(Shot::of_document_01().cells);
    shot.codes.resize(MOST_CODES, 0);
    shot.codes[place] = code;
    shot
}

/// A board of 32 by 32 of which the last marker is seen. No two codes are equal up to rotation. 0 is none of them, as its
/// rotations are equal.
pub fn of_largest_board(code_count: usize) -> Shot {
    let mut shot = Shot {
        rows: 32,
        cols: 32,
        bits: 4,
        ..Shot::default()
    };
    shot.codes = listed_codes(shot.bits, code_count + 1).split_off(1);
    let grid = Grid::of_code([shot.bits, shot.border], 128, shot.codes[MOST_MARKERS - 1]);
    shot.cells.push(Cell {
        u: 0,
        v: 0,
        sample: Some(Sample::new(1.0, grid.threshold, grid.grid)),
    });
    // No margin is too small. With the four bytes of this field the words of a row are shorter, too.
    shot.set_minimum_margin(-1.0);
    shot
}
