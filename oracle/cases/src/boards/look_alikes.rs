//! Boards with two codes that are equal up to rotation: one of them is the other one rotated. Those of markers are refused
//! by check 22 (document 02, 2.2), those past the last marker are not.

use super::{BoardArguments, board};
use crate::codes::{SIDES, listed_codes, most_different, patterns, turned_code};
use crate::entries::BOARD_REFUSALS;
use crate::floats::GOOD_CELL_SIZES;
use crate::prng::Prng;

/// The code at the second place is that at the first, rotated.
#[derive(Clone, Copy, Debug)]
pub struct Pair {
    pub places: [usize; 2],
    pub turn: u8,
}

/// Two places, from how many markers and how many codes there are. One may be past the last code.
type Places = fn(&mut Prng, usize, usize) -> [usize; 2];

const PLACES: [Places; 9] = [
    // The first and the last marker.
    |_, markers, _| [0, markers - 1],
    // The first two, two in the middle, the last two.
    |_, _, _| [0, 1],
    |_, markers, _| [markers / 2 - 1, markers / 2],
    |_, markers, _| [markers - 2, markers - 1],
    // Any two; if it is one, the code is rotated, and equal to none.
    |prng, markers, _| prng.two(|prng| prng.place(markers)),
    // The last marker and the code just past it, the first marker and the last code, any marker and any code past the last.
    |_, markers, _| [markers - 1, markers],
    |_, _, codes| [0, codes - 1],
    |prng, markers, codes| {
        [
            prng.place(markers),
            markers + prng.place(codes - markers + 1),
        ]
    },
    // Both past the last marker.
    |prng, markers, codes| prng.two(|prng| markers + prng.place(codes - markers + 1)),
];

/// Of a board with at least two markers and no fewer codes.
pub fn random_pair(prng: &mut Prng, markers: usize, codes: usize) -> Pair {
    let mut places = prng.pick(&PLACES)(prng, markers, codes);
    if prng.one_in(2) {
        places.reverse();
    }
    Pair {
        places,
        turn: prng.pick(&[0, 1, 2, 3]),
    }
}

/// A board of any side with such a pair, or with a code that equals its own rotations, and now and then with a fault of the
/// checks 1 to 8. Few of the other codes are equal up to rotation.
pub fn with_look_alikes(prng: &mut Prng) -> BoardArguments {
    let bits = prng.below(u64::from(*SIDES.end())) as u8 + 1;
    let mut board = random_size(prng, bits);
    let markers = board.marker_count();
    board.bits = bits.into();
    board.border_bits = 1 + prng.below(4) as u32;
    let more = prng.pick(&[0, 0, 1, 2, 40, 1024]);
    board.code_count = (markers + more).min(1024);
    if prng.one_in(6) {
        board.place = prng.place(board.code_count);
        board.value = prng.pick(&patterns(bits));
    } else {
        plant(prng, &mut board);
    }
    if prng.one_in(4) {
        prng.pick(&BOARD_REFUSALS)(&mut board);
    } else if prng.one_in(8) {
        // Too large for check 8. A rotation leaves the bit behind, so that the codes are equal up to rotation after it all
        // the same.
        board.value |= 1u64.checked_shl(board.bits.pow(2)).unwrap_or(0);
    }
    board
}

/// The second code of the pair is the odd one of the arguments.
fn plant(prng: &mut Prng, board: &mut BoardArguments) {
    let pair = random_pair(prng, board.marker_count(), board.code_count);
    let mut codes = listed_codes(board.side(), board.code_count);
    pair.plant(&mut codes, board.side());
    board.place = pair.places[1];
    board.value = codes.get(board.place).copied().unwrap_or(0);
}

/// With no more markers than the side has different codes, but for one board in sixteen.
fn random_size(prng: &mut Prng, bits: u8) -> BoardArguments {
    loop {
        let most = prng.pick(&[1, 2, 4, 8, 31]);
        let size = prng.two(|prng| 2 + prng.below(most) as u32);
        let board = board(size, prng.pick(&GOOD_CELL_SIZES));
        if board.marker_count() <= most_different(bits) || prng.one_in(16) {
            return board;
        }
    }
}

impl Pair {
    /// The codes with the pair among them, if both places are there.
    pub fn plant(&self, codes: &mut [u64], side: u8) {
        let [first, second] = self.places;
        if let Some(&first) = codes.get(first)
            && let Some(second) = codes.get_mut(second)
        {
            *second = turned_code(first, side, self.turn);
        }
    }
}
