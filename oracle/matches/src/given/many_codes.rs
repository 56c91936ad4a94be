//! Boards with many codes, all of which check 8 covers, up to 1,024, and 22 those of markers, up to 512: one code may be too
//! large, or two may be equal up to rotation.

use super::Given;
use super::faults::with_faults;
use super::scene::{Scene, markers_of};
use cases::boards::{Pair, random_pair};
use cases::codes::random_code;
use cases::prng::Prng;
use records::Shot;

const MOST_CODES: usize = 1024;

/// Half of the boards have as many markers as there may be. A quarter of the shots has one fault more, of any check.
pub fn given(prng: &mut Prng, legacy: bool) -> Given {
    let any_size = prng.two(|prng| 2 + prng.below(31) as u8);
    let size = prng.pick(&[[32, 32], [32, 32], [2, 2], any_size]);
    let scene = Scene::of_board(prng, size, legacy).with_part_seen(prng);
    let mut shot = scene.any_shot(prng);
    // No margin is too small, half of the time.
    if prng.one_in(2) {
        shot.set_minimum_margin(-1.0);
    }
    add_codes(prng, &mut shot);
    match prng.below(5) {
        0 | 1 => too_large(prng, &mut shot),
        2 | 3 => alike(prng, &mut shot),
        _ => {}
    }
    let faults = usize::from(prng.one_in(4));
    with_faults(prng, shot, faults)
}

/// As many as the limits of a list, or about as many; no fewer than there are.
fn add_codes(prng: &mut Prng, shot: &mut Shot) {
    let any = 1 + prng.place(MOST_CODES);
    let count = prng.pick(&[101, 511, 512, 513, 514, 1023, 1024, 1024, any, any]);
    let more = count.saturating_sub(shot.codes.len());
    let bits = shot.bits;
    shot.codes
        .extend(prng.many(more, |prng| random_code(prng, bits)));
}

/// At the last place of such a list, just past it, or anywhere. No code of 8 by 8 bits is.
fn too_large(prng: &mut Prng, shot: &mut Shot) {
    let count = shot.codes.len();
    let any = prng.place(count);
    let place = prng.pick(&[99, 100, 101, 511, 512, 513, count - 1, any, any, any]);
    let first = u32::from(shot.bits).pow(2);
    let bit = prng.pick(&[first, first, 32, 63]).max(first);
    if let Some(code) = shot.codes.get_mut(place) {
        *code |= 1u64.checked_shl(bit).unwrap_or(0);
    }
}

/// The last marker and another one, half of the time, or the code past it and any marker, or any two.
fn alike(prng: &mut Prng, shot: &mut Shot) {
    let markers = markers_of(shot.rows, shot.cols);
    let other = prng.place(markers - 1);
    let last = markers - 1;
    let places = prng.pick(&[
        [0, last],
        [last - 1, last],
        [other, last],
        [last, other],
        [other, markers],
        [last, markers],
    ]);
    let turn = prng.below(4) as u8;
    let any = random_pair(prng, markers, shot.codes.len());
    let pair = prng.pick(&[Pair { places, turn }, Pair { places, turn }, any]);
    pair.plant(&mut shot.codes, shot.bits);
}
