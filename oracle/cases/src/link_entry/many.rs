//! Many links, up to as many as are allowed.

use super::{LinkInput, MOST_LINKS, four_of_square, marker_squares};
use crate::boards::board;
use crate::prng::Prng;

const LONG_LIST: usize = 147_500;

/// A marker off the rim of the largest board, legacy or not.
const MARKER: u32 = 100;

/// How links are chosen, on a board of 32 rows and columns: link k, where the four corners of each marker are given.
pub type Spread = fn(&mut Prng, &[Option<[u32; 4]>], u32) -> [u32; 2];

/// Marker after marker, each to its four corners in six rounds, then to others.
pub const ALL_MARKERS: Spread = |_, fours, k| {
    let [marker, round] = [k % 512, k / 512];
    match fours[marker as usize] {
        Some(four) if round < 6 => [marker, four[round as usize % 4]],
        _ => [marker, k],
    }
};
/// One marker, every link to another corner.
pub const ONE_MARKER: Spread = |_, _, k| [MARKER, k];
/// Markers and corners by which 61 × marker + corner is the same modulo 4,096.
pub const EQUAL_KEYS: Spread = |_, _, k| with_key(k % 512, k / 512);
/// One marker, and corners that are the same modulo 4,096.
pub const EQUAL_KEYS_OF_ONE_MARKER: Spread = |_, _, k| with_key(MARKER, k);
/// Any marker of the board and any corner.
pub const ANY_CORNER: Spread = |prng, _, _| [prng.below(512) as u32, prng.below(961) as u32];

const SPREADS: [Spread; 8] = [
    ALL_MARKERS,
    ONE_MARKER,
    // One marker and one corner.
    |_, _, _| [MARKER, 7],
    EQUAL_KEYS,
    EQUAL_KEYS_OF_ONE_MARKER,
    // Every marker unknown, each another; then with 61 × marker the same modulo 4,096.
    |_, _, k| [512 + k, k],
    |_, _, k| [MARKER + 4096 * (k + 1), k],
    ANY_CORNER,
];

/// A corner by which 61 × marker + corner is 1,000 modulo 4,096, for each rotation another.
const fn with_key(marker: u32, turn: u32) -> [u32; 2] {
    let corner = (4096 * 61 + 1000 - 61 * marker) % 4096;
    [marker, corner + 4096 * turn]
}

/// So many links on the largest board.
pub fn many_links(
    prng: &mut Prng,
    legacy: bool,
    spread: Spread,
    count: usize,
    all_four: bool,
) -> LinkInput {
    let board = board([32, 32], 1.0).with_mark(legacy);
    let squares = marker_squares(&board).into_iter();
    let fours: Vec<_> = squares
        .map(|square| four_of_square(&board, square))
        .collect();
    let links = (0..count as u32).map(|k| spread(prng, &fours, k));
    LinkInput::new(board, &links.collect::<Vec<_>>(), all_four)
}

/// As many as are allowed, all of them one, then an odd word, then one more, with lists of several lengths.
pub fn most_of_one_link() -> Vec<LinkInput> {
    let mut input = LinkInput::new(board([4, 5], 1.0), &[[5, 5]; MOST_LINKS], true);
    let needed = input.places;
    let mut all = vec![input.clone()];
    for _ in 0..2 {
        input.words.push(5);
        for (all_four, places) in [(false, needed), (true, needed - 1), (true, LONG_LIST)] {
            input.all_four = all_four;
            input.places = places;
            all.push(input.clone());
        }
    }
    all
}

/// As many as are allowed, a few less, and one more.
pub fn of_most_links(prng: &mut Prng, legacy: bool) -> Vec<LinkInput> {
    let mut all = Vec::new();
    for spread in SPREADS {
        for count in [512, 1500, MOST_LINKS - 1, MOST_LINKS, MOST_LINKS + 1] {
            for all_four in [false, true] {
                all.push(many_links(prng, legacy, spread, count, all_four));
            }
        }
    }
    all
}
