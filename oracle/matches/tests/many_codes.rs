//! The generated records with many codes show that check 8 covers each code, and 22 the last marker and no code past it.

use matches::codes::{alike, too_large};
use matches::given::{KINDS, LEGACY_KINDS, OF_MANY_CODES, markers_of};
use matches::match_record;
use records::{Shot, read};

/// The shots of the kind, and the number that each gets.
fn answered(legacy: bool) -> Vec<(Shot, u32)> {
    let kinds = if legacy { &LEGACY_KINDS } else { &KINDS };
    let answered = kinds[OF_MANY_CODES].all().filter_map(|given| {
        let matched = match_record(&given.record, given.places);
        let number = matched.map_or_else(|refused| refused.number, |_| 0);
        Some((read(&given.record)?.shot, number))
    });
    answered.collect()
}

#[test]
fn a_code_too_large() {
    for legacy in [false, true] {
        let shots = answered(legacy);
        let has = |number: u32, is_it: &dyn Fn(&Shot) -> bool| {
            let mut of_number = shots.iter().filter(|(_, answer)| *answer == number);
            of_number.any(|(shot, _)| is_it(shot))
        };
        for place in [99, 100, 101, 511, 512, 513, 1023] {
            assert!(has(8, &|shot| too_large(shot) == [place]), "{place}");
        }
        let is_past = |shot: &Shot| matches!(too_large(shot)[..], [514..1023]);
        assert!(has(8, &is_past));
        assert!(has(0, &|shot| shot.codes.len() == 1024));
    }
}

#[test]
fn the_last_marker_alike() {
    for legacy in [false, true] {
        let shots = answered(legacy);
        let has = |number: u32, pair: [usize; 2]| {
            let mut of_number = shots.iter().filter(|(_, answer)| *answer == number);
            of_number.any(|(shot, _)| {
                let within = |pair: &[usize; 2]| pair[1] <= 512;
                let pairs: Vec<[usize; 2]> = alike(shot).into_iter().filter(within).collect();
                markers_of(shot.rows, shot.cols) == 512 && pairs == [pair]
            })
        };
        assert!(has(22, [0, 511]));
        assert!(has(22, [510, 511]));
        assert!(has(0, [511, 512]));
    }
}
