//! The shots of the logs.

use super::ENTRIES;
use cases::codes::random_different_codes;
use cases::corner_lists::rectangle;
use cases::prng::Prng;
use differential::bench::Board;
use matches::given::{KINDS, LEGACY_KINDS, Look, Scene, markers_of};
use records::{Shot, read};

/// How many records of the comparison there are for one of these.
const SHARE: usize = 8;

/// The first records of each kind of the comparison, as many as its share of all, in random order. Those that are refused by 21
/// are left out.
pub fn mixed() -> Vec<Shot> {
    let kinds = KINDS.iter().chain(&LEGACY_KINDS);
    let given = kinds.flat_map(|kind| kind.first(kind.count / SHARE));
    let shots = given.filter_map(|given| Some(read(&given.record)?.shot));
    let mut shots: Vec<Shot> = shots.collect();
    Prng::new(27).shuffle(&mut shots);
    shots
}

/// Of so many sheets one shows the large board.
const LARGE: usize = 200;

const BOARDS: [Board; 3] = [([5, 7], 4), ([6, 9], 5), ([9, 12], 6)];
const LARGE_BOARD: Board = ([32, 32], 4);

/// No more cells along one side of a block, as no match has more than 256.
const MOST: i32 = 16;

/// Sheets as a camera gives them of a few boards: the squares between inner corners, all of them or a part, in any rotation,
/// some squares missing or hard to read.
pub fn shelf() -> Vec<Shot> {
    let mut prng = Prng::new(28);
    let scenes = BOARDS.map(|board| scene(&mut prng, board));
    let large = scene(&mut prng, LARGE_BOARD);
    let sheets = (0..ENTRIES).map(|place| match place % LARGE {
        0 => sheet(&mut prng, &large),
        _ => {
            let scene = &scenes[prng.place(BOARDS.len())];
            sheet(&mut prng, scene)
        }
    });
    sheets.collect()
}

/// Nothing of it is seen yet.
fn scene(prng: &mut Prng, ([rows, cols], bits): Board) -> Scene {
    Scene {
        rows,
        cols,
        legacy: false,
        bits,
        border: 1,
        turn: 0,
        translation: [0, 0],
        codes: random_different_codes(prng, bits, markers_of(rows, cols)),
        squares: Vec::new(),
    }
}

/// In half of the sheets all squares between inner corners are in the picture, in the others at least half along each side. One
/// in ten is not found.
fn sheet(prng: &mut Prng, scene: &Scene) -> Shot {
    let inner = [scene.cols, scene.rows].map(|n| i32::from(n) - 2);
    let is_whole = prng.one_in(2);
    let seen = inner.map(|most| {
        let least = most / 2;
        let part = least + prng.below((most - least + 1) as u64) as i32;
        (if is_whole { most } else { part }).min(MOST)
    });
    let first = [0, 1].map(|axis| 1 + prng.below((inner[axis] - seen[axis] + 1) as u64) as i32);
    let squares = rectangle(first, seen).filter(|_| !prng.one_in(10));
    let squares = squares.collect();
    let scene = Scene {
        turn: prng.below(4) as u8,
        translation: prng.two(|prng| prng.below(41) as i32 - 20),
        squares,
        ..scene.clone()
    };
    let look = prng.pick(&[Look::Clear, Look::Noisy]);
    scene.shot(prng, look)
}
