//! Good shots with one fault or two, so that every check fails once and the order of the checks shows.

use super::Given;
use super::numbers::odd_entries;
use super::points::is_free;
use super::scene::{Look, Scene, markers_of};
use crate::answer::MARKER_WORDS;
use cases::boards::Pair;
use cases::floats::{ABOVE_1, BAD_CELL_SIZES, BAD_MARKER_SIZES, INF, LEAST, MAX, NAN, NOT_FINITE};
use cases::prng::Prng;
use cases::tables::PLACES;
use records::{Cell, Shot, UNSAMPLED, settings, write};

struct Faulty {
    shot: Shot,
    is_list_short: bool,
    is_broken: bool,
}

type Fault = fn(&mut Prng, &mut Faulty);

/// By the number of the check, in the order in which they are made, but for 23, which has a kind of its own (`repeats.rs`).
const FAULTS: [Fault; 19] = [
    |_, faulty| faulty.is_broken = true,
    |prng, Faulty { shot, .. }| {
        let size = prng.below(2) as u8;
        match prng.below(3) {
            0 => shot.rows = size,
            1 => shot.cols = size,
            _ => [shot.rows, shot.cols] = [size; 2],
        }
    },
    |prng, Faulty { shot, .. }| shot.cell_size = prng.pick(&BAD_CELL_SIZES).to_bits(),
    |prng, Faulty { shot, .. }| shot.marker_size_rel = prng.pick(&BAD_MARKER_SIZES).to_bits(),
    |_, Faulty { shot, .. }| shot.border = 0,
    |_, Faulty { shot, .. }| shot.codes.clear(),
    |prng, Faulty { shot, .. }| match prng.below(5) {
        0 => shot.rows = prng.pick(&[33, 64, 255]),
        1 => shot.cols = prng.pick(&[33, 64, 255]),
        2 => shot.border = prng.pick(&[5, 6]),
        3 => shot.bits = prng.pick(&[0, 9, 10]),
        _ => shot.codes.resize(prng.pick(&[1025, 2000]), 1),
    },
    |prng, Faulty { shot, .. }| {
        let needed = markers_of(shot.rows, shot.cols);
        let missing = prng.pick(&[1, 1, 2]);
        shot.codes.truncate(needed.saturating_sub(missing).max(1));
    },
    |prng, Faulty { shot, .. }| {
        let place = prng.place(shot.codes.len().max(1));
        let bit = u32::from(shot.bits).pow(2);
        if let Some(code) = shot.codes.get_mut(place) {
            *code |= 1u64.checked_shl(bit).unwrap_or(0);
        }
    },
    |prng, Faulty { shot, .. }| {
        // The first two markers, or the first and the last.
        let last = markers_of(shot.rows, shot.cols).saturating_sub(1);
        let pair = Pair {
            places: prng.pick(&[[0, 1], [0, last], [last, 0]]),
            turn: prng.below(4) as u8,
        };
        pair.plant(&mut shot.codes, shot.bits.min(8));
    },
    |prng, Faulty { shot, .. }| {
        let odd = prng.pick(&NOT_FINITE).to_bits();
        let which = prng.below(3);
        shot.map |= 1 << which;
        match which {
            0 => shot.minimum_margin = odd,
            1 => shot.border_threshold = odd,
            _ => shot.px_per_square = odd,
        }
    },
    |prng, Faulty { shot, .. }| {
        let [_, bad] = odd_entries();
        shot.map |= settings::TABLE;
        shot.table[prng.pick(&PLACES)] = prng.pick(&bad).to_bits();
    },
    |_, Faulty { shot, .. }| shot.cells.clear(),
    |prng, Faulty { shot, .. }| {
        let far = prng.pick(&[-4097, 4097, i16::MIN, i16::MAX]);
        let count = shot.cells.len();
        match (prng.below(3), shot.cells.is_empty()) {
            (0, _) | (_, true) => shot.cells.resize(prng.pick(&[257, 300]), UNSAMPLED),
            (1, _) => shot.cells[prng.place(count)].u = far,
            _ => shot.cells[prng.place(count)].v = far,
        }
    },
    |prng, Faulty { shot, .. }| {
        let mut samples: Vec<_> = shot.samples_mut().collect();
        if !samples.is_empty() {
            let place = prng.place(samples.len());
            samples[place].fraction = prng.pick(&BAD_FRACTIONS).to_bits();
        }
    },
    |_, faulty| faulty.is_list_short = true,
    |prng, Faulty { shot, .. }| {
        if let Some(first) = shot.cells.first() {
            let [u, v] = [first.u, first.v];
            let far: i16 = prng.pick(&[32, 33, 60, -32, -33, -60]);
            let [u, v] = prng.pick(&[[u.saturating_add(far), v], [u, v.saturating_add(far)]]);
            if is_free(shot, [u, v]) {
                shot.cells.push(Cell { u, v, ..UNSAMPLED });
            }
        }
    },
    |prng, Faulty { shot, .. }| {
        shot.set_minimum_margin(prng.pick(&[MAX, 20.0, 1e30]));
    },
    |prng, Faulty { shot, .. }| {
        if shot.map & settings::MINIMUM_MARGIN == 0 {
            shot.set_minimum_margin(prng.pick(&[0.0, -0.0, -1.0]));
        }
        for sample in shot.samples_mut() {
            sample.fraction = prng.pick(&[0.0f32, -0.0]).to_bits();
        }
    },
];

const BAD_FRACTIONS: [f32; 8] = [-LEAST, -0.5, ABOVE_1, 2.0, MAX, INF, -INF, NAN];

/// One fault, or two of which the later check is not reached.
pub fn given(prng: &mut Prng, legacy: bool) -> Given {
    let shot = Scene::random(prng, legacy).shot(prng, Look::Clear);
    with_faults(prng, shot, 2)
}

/// So many faults of any checks.
pub fn with_faults(prng: &mut Prng, shot: Shot, count: usize) -> Given {
    with_faults_of(prng, shot, &FAULTS, count)
}

/// The same of the checks 14 to 17, which are the last.
pub fn with_late_faults(prng: &mut Prng, shot: Shot, count: usize) -> Given {
    with_faults_of(prng, shot, &FAULTS[FAULTS.len() - 4..], count)
}

/// The same of the checks 21, 1 to 8 and 22, which are the first.
pub fn with_board_faults(prng: &mut Prng, shot: Shot, count: usize) -> Given {
    with_faults_of(prng, shot, &FAULTS[..10], count)
}

/// The same of the checks 9 to 13, which only a match makes.
pub fn with_faults_of_match(prng: &mut Prng, shot: Shot, count: usize) -> Given {
    with_faults_of(prng, shot, &FAULTS[10..15], count)
}

fn with_faults_of(prng: &mut Prng, shot: Shot, faults: &[Fault], count: usize) -> Given {
    let mut faulty = Faulty {
        shot,
        is_list_short: false,
        is_broken: false,
    };
    for _ in 0..count {
        prng.pick(faults)(prng, &mut faulty);
    }
    faulty.given(prng)
}

impl Faulty {
    /// Grids are made whole again where bits or border have changed.
    fn given(mut self, prng: &mut Prng) -> Given {
        let greys = self.shot.greys();
        for sample in self.shot.samples_mut() {
            sample.grid.resize(greys, 77);
        }
        let mut record = write(&self.shot).bytes;
        if self.is_broken {
            broken(prng, &mut record);
        }
        let needed = self.shot.cells.len() * MARKER_WORDS;
        let short = prng.pick(&[1, 1, 17, MARKER_WORDS, needed]);
        let places = needed.saturating_sub(if self.is_list_short { short } else { 0 });
        Given { record, places }
    }
}

/// A bit of the map byte from 4 on, a byte less, a byte more.
fn broken(prng: &mut Prng, record: &mut Vec<u8>) {
    match prng.below(3) {
        0 => record[0] |= prng.pick(&settings::UPPER),
        1 => {
            record.pop();
        }
        _ => record.push(0),
    }
}
