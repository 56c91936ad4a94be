//! Score arrays of the caller (document 02, 2.6): of lengths around the one that is needed, with any bit patterns in them;
//! and further records for them.

use super::Given;
use super::faults::with_late_faults;
use super::scene::{Look, Scene};
use crate::scores::{MOST_SCORES, count};
use cases::corner_lists::rectangle;
use cases::floats::{INF, LEAST, MAX, NAN, SIGNALLING};
use cases::prng::Prng;
use records::{Shot, settings};

/// How long an array is, by what is needed.
#[derive(Clone, Copy, Debug, PartialEq, Eq, PartialOrd, Ord)]
pub enum Length {
    Empty,
    Shorter,
    OneShort,
    Exact,
    Longer,
}

pub const LENGTHS: [Length; 5] = [
    Length::Empty,
    Length::Shorter,
    Length::OneShort,
    Length::Exact,
    Length::Longer,
];

impl Length {
    /// How many elements that is, for an array that needs at least two.
    pub fn elements(self, prng: &mut Prng, needed: usize) -> usize {
        match self {
            Self::Empty => 0,
            Self::Shorter => 1 + prng.place(needed - 1),
            Self::OneShort => needed - 1,
            Self::Exact => needed,
            Self::Longer => needed + prng.pick(&MORE),
        }
    }

    pub const fn is_enough(self) -> bool {
        matches!(self, Self::Exact | Self::Longer)
    }
}

/// What is needed of a record that is refused before the length matters, if it states no number or none that can be had.
pub(super) const FOR_REFUSED: usize = 40;

/// By which an array may be longer than needed.
const MORE: [usize; 6] = [1, 2, 3, 5, 8, 100];

pub struct ScoreArray {
    pub length: Length,
    /// The bit patterns before the call.
    pub words: Vec<u32>,
}

impl ScoreArray {
    /// Long enough two times out of three, as a filled array shows most.
    pub fn any(prng: &mut Prng, record: &[u8]) -> Self {
        let length = match prng.below(3) {
            0 => prng.pick(&LENGTHS[..3]),
            _ => prng.pick(&LENGTHS[3..]),
        };
        Self::of_length(prng, record, length)
    }

    pub fn of_length(prng: &mut Prng, record: &[u8], length: Length) -> Self {
        let read = records::read(record);
        let needed = read.map_or(0, |read| count(&read.shot));
        let needed = match needed {
            1..=MOST_SCORES => needed,
            _ => FOR_REFUSED,
        };
        let places = length.elements(prng, needed);
        Self {
            length,
            words: patterns(prng, places),
        }
    }
}

/// NaNs that are all different, quiet or signalling; any words; numbers that a careless copy changes.
fn patterns(prng: &mut Prng, places: usize) -> Vec<u32> {
    let quiet = NAN.to_bits();
    let special = [NAN, -NAN, SIGNALLING, INF, -INF, 0.0, -0.0, LEAST, MAX, 1.0].map(f32::to_bits);
    match prng.below(4) {
        0 => (0..places as u32).map(|i| quiet ^ i).collect(),
        1 => (0..places as u32)
            .map(|i| SIGNALLING.to_bits() + i)
            .collect(),
        2 => prng.many(places, |prng| prng.draw() as u32),
        _ => prng.many(places, |prng| prng.pick(&special)),
    }
}

/// One fault or two of the checks 14 to 17, with any minimum margin: beside an array that is too short they show the place of
/// 24 in the order.
pub fn next_to_24(prng: &mut Prng, legacy: bool) -> Given {
    let mut shot = Scene::random(prng, legacy).any_shot(prng);
    if prng.one_in(2) {
        shot.set_minimum_margin(prng.pick(&[0.0, -1.0, 0.5]));
    }
    let faults = prng.pick(&[0, 1, 1, 2]);
    with_late_faults(prng, shot, faults)
}

/// A few cells of a board of this size.
pub fn of_size(prng: &mut Prng, size: [u8; 2], legacy: bool) -> Shot {
    let mut scene = Scene::of_board(prng, size, legacy).with_part_seen(prng);
    scene.squares.truncate(4);
    let mut shot = scene.any_shot(prng);
    if prng.one_in(2) {
        shot.set_minimum_margin(-1.0);
    }
    shot
}

/// 256 cells on 32 × 32 squares, of which some are unsampled and some have weight 0.
pub fn most_scores(prng: &mut Prng, legacy: bool) -> Shot {
    let mut scene = Scene::of_board(prng, [32, 32], legacy);
    scene.border = 1;
    let block = prng.pick(&[[16, 16], [32, 8], [8, 32]]);
    scene.squares = rectangle([0, 0], block).collect();
    prng.shuffle(&mut scene.squares);
    let mut shot = scene.shot(prng, Look::Noisy);
    for sample in shot.samples_mut() {
        if prng.one_in(8) {
            sample.fraction = 0.0f32.to_bits();
        }
    }
    shot.map |= settings::MINIMUM_MARGIN;
    shot.minimum_margin = 0.0f32.to_bits();
    shot
}
