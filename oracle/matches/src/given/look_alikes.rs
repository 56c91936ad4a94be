//! Boards with codes that are equal up to rotation (document 02, 2.2). Those of markers are refused by 22, though upstream
//! places them.

use super::Given;
use super::faults::with_faults;
use super::scene::{Scene, markers_of};
use cases::boards::random_pair;
use cases::codes::{all_ones, patterns, random_code};
use cases::floats::NORMAL;
use cases::prng::Prng;
use records::{Shot, settings};

type Change = fn(&mut Prng, &mut Shot);

/// Pairs come up most. The others make placements tie.
const CHANGES: [Change; 7] = [
    pair,
    pair,
    pair,
    equal_codes,
    codes_that_turns_keep,
    two_codes,
    any_codes,
];

/// Half of the time with a minimum margin that no margin is below, a quarter of the time with one fault more, of any check.
pub fn given(prng: &mut Prng, legacy: bool) -> Given {
    let mut shot = Scene::random(prng, legacy).any_shot(prng);
    prng.pick(&CHANGES)(prng, &mut shot);
    if shot.map & settings::MINIMUM_MARGIN == 0 && prng.one_in(2) {
        shot.set_minimum_margin(prng.pick(&[0.0, -0.0, -1.0, NORMAL]));
    }
    let faults = usize::from(prng.one_in(4));
    with_faults(prng, shot, faults)
}

/// One code becomes the rotation of another. Both are of markers, or one of them or both are past the last marker.
fn pair(prng: &mut Prng, shot: &mut Shot) {
    let more = prng.pick(&[0, 1, 2, 6]);
    let bits = shot.bits;
    shot.codes
        .extend(prng.many(more, |prng| random_code(prng, bits)));
    let markers = markers_of(shot.rows, shot.cols);
    random_pair(prng, markers, shot.codes.len()).plant(&mut shot.codes, bits);
}

fn equal_codes(_: &mut Prng, shot: &mut Shot) {
    let first = shot.codes[0];
    shot.codes.fill(first);
}

/// No bit, every bit, or one of the checkers. Small boards may have no two that are equal up to rotation.
fn codes_that_turns_keep(prng: &mut Prng, shot: &mut Shot) {
    let patterns = patterns(shot.bits);
    shot.codes = shot.codes.iter().map(|_| prng.pick(&patterns)).collect();
}

fn two_codes(prng: &mut Prng, shot: &mut Shot) {
    let two = [shot.codes[0], all_ones(shot.bits) ^ shot.codes[0]];
    shot.codes = shot.codes.iter().map(|_| prng.pick(&two)).collect();
}

/// Of small sides some are equal up to rotation by chance.
fn any_codes(prng: &mut Prng, shot: &mut Shot) {
    let bits = shot.bits;
    shot.codes = prng.many(shot.codes.len(), |prng| random_code(prng, bits));
}
