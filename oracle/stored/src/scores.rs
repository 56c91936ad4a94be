//! The score of a cell and a code, its evidence, and the code that is read.

use crate::kinds::SCORE;
use crate::parts::halves;
use crate::script::Script;
use cases::answer::Answer;
use cases::cells::{BORDERS, Cell, THRESHOLDS};
use cases::codes::{SIDES, TURNS, patterns, random_code};
use cases::floats::float_bits;
use cases::prng::Prng;
use theirs::{BUILT_IN, Samples, ScoreBoard, read_code, rotate_code};

/// Base and spread of a cell's grey levels, for a threshold.
const GREYS: [fn(u8) -> [u8; 2]; 10] = [
    // any grey
    |_| [0, 255],
    |_| [0, 255],
    |_| [130, 255],
    // white and black, from 216 over 255 to 40
    |_| [216, 80],
    // in doubt
    |threshold| [threshold.wrapping_sub(40), 80],
    |threshold| [threshold.wrapping_sub(20), 40],
    // beside the threshold and at it
    |threshold| [threshold.wrapping_sub(1), 2],
    |threshold| [threshold, 0],
    // all black, all white
    |_| [0, 0],
    |_| [255, 0],
];

/// A row for each of the grey levels, of every side and border.
pub fn ask(script: &mut Script) {
    let mut prng = Prng::new(18);
    for bits in SIDES {
        for border in BORDERS {
            for greys in GREYS {
                ask_one(script, &mut prng, [bits, border], greys);
            }
        }
    }
}

fn ask_one(script: &mut Script, prng: &mut Prng, size: [u8; 2], greys: fn(u8) -> [u8; 2]) {
    let [bits, border] = size;
    let threshold = match prng.below(2) {
        0 => prng.pick(&THRESHOLDS),
        _ => prng.byte(),
    };
    let [base, spread] = greys(threshold);
    let seed = prng.draw() as u32;
    let greys = grid(Cell::side(size).pow(2), seed, base, spread);
    let cell = Cell::new(size, threshold, greys);
    let turn = prng.below(u64::from(TURNS.end)) as u8;
    let code = any_code(prng, &cell, turn);
    // A board has two codes at least.
    let board = ScoreBoard::new(bits, &[code, 0]);
    let scores = board.scores(&Samples::new(std::slice::from_ref(&cell)), BUILT_IN);
    let score = scores.of_cell(0)[usize::from(turn)];
    let [score, evidence] = [score, scores.evidence(0, 0, turn)].map(float_bits);
    let [low, high] = halves(read_code(&cell));
    script.give_bytes(&cell.grid);
    let code = rotate_code(code, bits, turn);
    let arguments = [bits.into(), border.into(), threshold.into(), code];
    let answer = Answer::of_words([score, evidence, low, high]);
    script.ask(SCORE, &arguments, answer);
}

/// Greys from base on, and so many above it, that start over after 255.
fn grid(places: usize, seed: u32, base: u8, spread: u8) -> Vec<u8> {
    let mut x = seed;
    let mut grey = || {
        x = x.wrapping_mul(1_103_515_245).wrapping_add(12_345);
        let above_base = (x >> 24) % (u32::from(spread) + 1);
        base.wrapping_add(above_base as u8)
    };
    (0..places).map(|_| grey()).collect()
}

/// A pattern, a random code, or the one that gives, when rotated, what the cell shows.
fn any_code(prng: &mut Prng, cell: &Cell, turn: u8) -> u64 {
    match prng.below(3) {
        0 => prng.pick(&patterns(cell.bits)),
        1 => random_code(prng, cell.bits),
        _ => rotate_code(read_code(cell), cell.bits, TURNS.end - turn),
    }
}
