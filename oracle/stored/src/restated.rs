//! Restated records (document 02, 2.7): small boards of each parity, and one of each check that fails, most with a further one.

use crate::script::Script;
use cases::cells::Cell as Grid;
use cases::codes::listed_codes;
use matches::given::markers_of;
use records::{Cell, Sample, Shot, UNSAMPLED, settings, write};

/// Lengths of the output array by that of the record.
type Length = fn(usize) -> usize;

const EXACT: Length = |needed| needed;
const LONGER: Length = |needed| needed + 5;
const ONE_SHORT: Length = |needed| needed - 1;
const EMPTY: Length = |_| 0;

pub fn ask(script: &mut Script) {
    for (shot, length) in [good(), refused()].concat() {
        ask_record(script, &write(&shot).bytes, length);
    }
    // 21 before all others: a byte less, a byte more, the flag of a field that is missing.
    let record = write(&even()).bytes;
    for broken in [
        &record[..record.len() - 1],
        &[&record[..], &[0]].concat(),
        &with_flag(&record, settings::LEAST_WEIGHT),
    ] {
        ask_record(script, broken, EMPTY);
        ask_record(script, broken, LONGER);
    }
}

fn with_flag(record: &[u8], flag: u8) -> Vec<u8> {
    [&[record[0] | flag], &record[1..]].concat()
}

/// With a least weight (document 02, 2.8), which is before the board: on a board whose codes are reversed, on others, and on one
/// that 25 refuses; beside it every other field; NaNs and numbers that only a match refuses. Then spare bits.
pub fn ask_least_weights(script: &mut Script) {
    let all = settings::MINIMUM_MARGIN
        | settings::BORDER_THRESHOLD
        | settings::PX_PER_SQUARE
        | settings::TABLE;
    let reversed = || board([2, 3], 2, 1).marked();
    for (mut shot, map, bits, length) in [
        (reversed(), 0, 0x3E80_0000, EXACT),
        (reversed(), all, 0x3F7F_FFFF, LONGER),
        (reversed(), settings::TABLE, 0x7F80_0001, EXACT),
        (board([3, 2], 2, 1).marked(), 0, 0xFFC0_0001, EXACT),
        (board([2, 3], 2, 1), settings::PX_PER_SQUARE, 1, LONGER),
        (even(), 0, 0x3F80_0000, EXACT),
        (reversed(), 0, 0x8000_0000, ONE_SHORT),
    ] {
        shot.map |= map;
        shot.set_least_weight(bits);
        ask_record(script, &write(&shot).bytes, length);
    }
    let mut shot = reversed();
    shot.set_least_weight(0);
    let record = write(&shot).bytes;
    for spare in settings::SPARE {
        ask_record(script, &with_flag(&record, spare), LONGER);
    }
}

fn ask_record(script: &mut Script, record: &[u8], length: Length) {
    script.give_bytes(record);
    script.ask_restated(length(record.len()));
}

/// A board of this size with so many codes past those of markers. 0 is none of them, as its rotations are equal.
fn board([rows, cols]: [u8; 2], bits: u8, later: usize) -> Shot {
    let mut shot = Shot {
        rows,
        cols,
        bits,
        ..Shot::default()
    };
    let count = markers_of(rows, cols) + later;
    let listed = listed_codes(bits, count + 1);
    shot.codes = listed[1..].to_vec();
    let grid = Grid::of_code([bits, shot.border], 128, shot.codes[0]);
    let sample = Some(Sample::new(1.0, grid.threshold, grid.grid));
    shot.cells = vec![
        UNSAMPLED,
        Cell {
            u: -2,
            v: 3,
            sample,
        },
    ];
    shot
}

/// Each parity, with the flag where it passes and without it.
fn good() -> Vec<(Shot, Length)> {
    let legacy = |size, bits, later| board(size, bits, later).marked();
    vec![
        (legacy([2, 3], 2, 0), EXACT),
        (legacy([2, 3], 2, 2), LONGER),
        (legacy([4, 3], 3, 3), EXACT),
        (legacy([2, 5], 5, 1), EXACT),
        (legacy([6, 3], 8, 4), LONGER),
        (legacy([3, 2], 2, 1), EXACT),
        (legacy([3, 3], 3, 1), LONGER),
        (board([2, 3], 2, 1), EXACT),
        (board([2, 2], 2, 1), LONGER),
        (board([3, 2], 2, 1), EXACT),
        (board([3, 3], 3, 1), LONGER),
        (refused_by_a_match(), EXACT),
        (legacy([32, 31], 4, 4), EXACT),
    ]
}

/// No settings are numbers, a fraction is below 0, and two cells have the same position.
fn refused_by_a_match() -> Shot {
    let mut shot = board([4, 3], 4, 1).marked();
    shot.map |= settings::MINIMUM_MARGIN | settings::BORDER_THRESHOLD | settings::PX_PER_SQUARE;
    shot.minimum_margin = 0x7F80_0001;
    shot.border_threshold = 0xFFC0_0002;
    shot.px_per_square = 0xFF80_0000;
    shot.cells.push(shot.cells[1].clone());
    for sample in shot.samples_mut() {
        sample.fraction = 0x8000_0001;
    }
    shot
}

/// A board that 25 refuses.
fn even() -> Shot {
    board([4, 2], 2, 1).marked()
}

fn even_with(change: fn(&mut Shot)) -> Shot {
    let mut shot = even();
    change(&mut shot);
    shot
}

/// One fault of each check of a board that 25 refuses too, with arrays that are too short for most.
fn refused() -> Vec<(Shot, Length)> {
    let two_by_three = || board([2, 3], 2, 1);
    vec![
        (even_with(|shot| shot.rows = 0), EMPTY),
        (even_with(|shot| shot.cell_size = 0), EMPTY),
        (even_with(|shot| shot.marker_size_rel = 0), EMPTY),
        (
            even_with(|shot| {
                shot.border = 0;
                shot.cells.clear()
            }),
            EMPTY,
        ),
        (even_with(|shot| shot.codes.clear()), EMPTY),
        (even_with(|shot| shot.rows = 34), EMPTY),
        (even_with(|shot| shot.codes.truncate(3)), EMPTY),
        (
            even_with(|shot| {
                shot.rows = 6;
                shot.codes.truncate(2)
            }),
            EXACT,
        ),
        (even_with(|shot| shot.codes[4] = 16), EMPTY),
        (even_with(|shot| shot.codes[3] = shot.codes[0]), EMPTY),
        (even_with(|shot| shot.codes[3] = shot.codes[0]), EXACT),
        (even(), EMPTY),
        (even(), ONE_SHORT),
        (even(), EXACT),
        (board([2, 2], 2, 0).marked(), LONGER),
        (two_by_three().marked(), EMPTY),
        (two_by_three().marked(), ONE_SHORT),
        (two_by_three(), ONE_SHORT),
        (board([3, 2], 2, 0).marked(), ONE_SHORT),
    ]
}
