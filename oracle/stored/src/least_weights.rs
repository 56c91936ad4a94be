//! The least weight (document 02, 2.8): weights, the readers, matches with and without scores, restated records.

use crate::matches::{SHORT, WITH_TABLE, ask_all, fits, with_places};
use crate::script::{Script, few};
use crate::{parts, records, restated, score_arrays};
use matches::cuts::Shown;
use matches::given::{
    Given, INVALID, KINDS, LEGACY_KINDS, Length, OF_LEAST_WEIGHTS, VALID, two_small_boards,
};
use matches::{match_record, told};

/// So many show each wrong program and each case.
const OF_EACH_CASE: usize = 2;

/// No kind is looked through further than this.
const LOOKED_THROUGH: usize = 4_000;

/// Of the small boards: weights are 0.4 and 1.
const NEAR: [f32; 4] = [0.4, 0.4f32.next_up(), 0.4f32.next_down(), 0.2];

pub fn ask(script: &mut Script) {
    parts::ask_least_weights(script);
    for legacy in [false, true] {
        records::ask_least_weights(script, legacy);
        let small = small_boards(legacy);
        ask_all(script, &small);
        ask_all(script, &showing(legacy, &small));
        for (given, length) in small.iter().zip([Length::Exact, Length::Longer].repeat(2)) {
            score_arrays::ask_one(script, given, length);
        }
    }
    restated::ask_least_weights(script);
}

/// Without a least weight, and with each.
fn small_boards(legacy: bool) -> Vec<Given> {
    let mut shots = vec![two_small_boards(legacy)];
    for least in [&NEAR[..], &VALID, &INVALID].concat() {
        let mut shot = two_small_boards(legacy);
        shot.set_least_weight(least.to_bits());
        shots.push(shot);
    }
    shots.into_iter().map(with_places).collect()
}

/// Each of them shows a wrong program or a case that few before it and few of the small boards do. Those with a table, which are
/// long, come last.
fn showing(legacy: bool, small: &[Given]) -> Vec<Given> {
    let kinds = if legacy { &LEGACY_KINDS } else { &KINDS };
    let mut is_new = few(OF_EACH_CASE);
    for place in small.iter().flat_map(shown) {
        is_new(place);
    }
    let mut showing = Vec::new();
    for longest in [SHORT, WITH_TABLE] {
        let looked_through = kinds[OF_LEAST_WEIGHTS].first(LOOKED_THROUGH);
        showing.extend(looked_through.filter(|given| {
            // All that it shows is counted.
            fits(given, longest) && shown(given).filter(|&place| is_new(place)).count() > 0
        }));
    }
    showing
}

/// What a match of the record shows, by its place among all.
fn shown(given: &Given) -> impl Iterator<Item = u32> {
    let mut shown = Shown::default();
    if let Some(read) = ::records::read(&given.record) {
        let answer = told(&match_record(&given.record, given.places));
        shown.add(&read.shot, given.places, &answer);
    }
    let all = [
        &shown.wrong[..],
        &shown.cases,
        &shown.invalid,
        &shown.orders,
    ]
    .concat();
    let of_this = (0..).zip(all).filter(|&(_, count)| count > 0);
    of_this.map(|(place, _)| place)
}
