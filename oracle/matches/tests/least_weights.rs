//! The least weight (document 02, 2.8): a small board by hand, check 9, upstream as a witness, and what the kind of records must
//! show.

use cases::floats::BORDER_THRESHOLDS;
use matches::cuts::{CASES, ORDERS, Shown, WRONG};
use matches::given::{INVALID, KINDS, LEGACY_KINDS, OF_LEAST_WEIGHTS, VALID, two_small_boards};
use matches::{
    MARKER_WORDS, MOST_PLACES, by_rust_and_model, by_turned_rust_and_model, match_shot, text, told,
};
use records::{Shot, settings};
use theirs::{cell_weight, cut};

/// With this least weight, or without the field.
fn with_least(legacy: bool, least: Option<f32>) -> Shot {
    let mut shot = two_small_boards(legacy);
    if let Some(least) = least {
        shot.set_least_weight(least.to_bits());
    }
    shot
}

fn text_of(shot: &Shot) -> String {
    text(&match_shot(shot, 6 * MARKER_WORDS))
}

/// Each cell that shows its marker has the evidence 4 ln 2 by its weight. So the rotated placement has 1.2 times it, and the
/// other one it: the margin is a sixth. A weight at the least weight stays, and the next float to it does not. The fraction
/// 0.2 is below some of them.
#[test]
fn the_best_by_hand() {
    let best = 4.0 * std::f32::consts::LN_2;
    for legacy in [false, true] {
        let least_weights = [0.0, -0.0, 0.1, 0.3, 0.4f32.next_down(), 0.4];
        for least in [None].into_iter().chain(least_weights.map(Some)) {
            let text = text_of(&with_least(legacy, least));
            assert!(text.starts_with("placed\nbest 2 2 1 "), "{text}");
            let next = format!(" 3\nnext 0 0 0 {:08X} 1\nmargin ", best.to_bits());
            assert!(text.contains(&next), "{text}");
            assert!(
                text.contains("\nplacements 2\ncorners 2 3 2\nmarker 3 0 "),
                "{text}"
            );
            let lines: Vec<&str> = text.lines().collect();
            assert_eq!(lines.len(), 9);
            let margin = u32::from_str_radix(&lines[3]["margin ".len()..], 16);
            let margin = f32::from_bits(margin.expect("a bit pattern"));
            assert!((margin - 1.0 / 6.0).abs() < 1e-6);
        }
        for least in [0.4f32.next_up(), 0.5, 1.0f32.next_down(), 1.0] {
            let u = if legacy { 0 } else { 1 };
            let expected = format!(
                "placed\n\
                 best 0 0 0 {:08X} 1\n\
                 next 2 2 1 none 0\n\
                 margin 3F800000\n\
                 placements 2\n\
                 corners 0 0 0\n\
                 marker 0 0 {u} 0 0 0 0000000000000001 00000000\n",
                best.to_bits()
            );
            assert_eq!(text_of(&with_least(legacy, Some(least))), expected);
        }
    }
}

/// Without the cell of weight 1 every weight is cut. No margin is then below a minimum of 0 or less, and no marker is left.
#[test]
fn every_weight_cut() {
    for legacy in [false, true] {
        let mut shot = with_least(legacy, Some(0.5));
        shot.cells[0].sample = None;
        assert_eq!(text_of(&shot), "refused 16 00000000\n");
        shot.set_minimum_margin(-0.0);
        assert_eq!(text_of(&shot), "refused 17\n");
        // A cut cell is a cell: where it is off the board nothing fits.
        shot.cells[5].u = 7;
        assert_eq!(text_of(&shot), "refused 15\n");
        shot.cells[5].u = shot.cells[4].u;
        shot.cells[5].v = shot.cells[4].v;
        assert_eq!(text_of(&shot), "refused 23\n");
    }
}

/// By a border threshold of at most 0 all weights are 1, and a weight of 1 is never cut.
#[test]
fn no_weight_of_1_cut() {
    for threshold in [0.0, -0.0, -1.0, 0.2, 0.1, f32::from_bits(1)] {
        let mut shot = with_least(false, Some(1.0));
        shot.map |= settings::BORDER_THRESHOLD;
        shot.border_threshold = f32::to_bits(threshold);
        let text = text_of(&shot);
        assert!(text.starts_with("placed\nbest 2 2 1 "), "{text}");
        shot.map &= !settings::LEAST_WEIGHT;
        shot.least_weight = 0;
        assert_eq!(text_of(&shot), text);
    }
}

/// Document 02: "below it", and "an equal one keeps its weight"; -0.0 is not below 0.
#[test]
fn weights_that_are_cut() {
    for (weight, least, expected) in [
        (0.25, 0.5, 0.0),
        (0.5, 0.5, 0.5),
        (0.5, 0.5f32.next_up(), 0.0),
        (0.5f32.next_up(), 0.5, 0.5f32.next_up()),
        (1.0, 1.0, 1.0),
        (1.0f32.next_down(), 1.0, 0.0),
        (f32::from_bits(1), f32::from_bits(1), f32::from_bits(1)),
        (f32::from_bits(1), f32::from_bits(2), 0.0),
        (-0.0, 0.0, -0.0),
        (0.0, -0.0, 0.0),
        (-0.0, f32::from_bits(1), 0.0),
    ] {
        let bits = cut(weight, least).to_bits();
        assert_eq!(bits, f32::to_bits(expected), "{weight:e}, {least:e}");
    }
}

/// By which upstream is a witness of a cut cell: with the fraction 0 its weight is 0.
#[test]
fn upstream_has_no_weight_for_fraction_0() {
    for threshold in BORDER_THRESHOLDS {
        let weight = cell_weight(threshold, true, 0.0);
        let expected: f32 = if threshold <= 0.0 { 1.0 } else { 0.0 };
        assert_eq!(weight.to_bits(), expected.to_bits(), "{threshold:e}");
    }
}

/// Both sides find the answers by hand, on the board as it is or rotated by 90°.
#[test]
fn by_both_sides() {
    for least in VALID.into_iter().chain([0.4, 0.4f32.next_up()]) {
        let [rust, rules] = by_rust_and_model(&with_least(false, Some(least)))
            .expect("upstream can take it")
            .map(|matched| told(&matched));
        assert_eq!(rust, rules);
        let count = if least > 0.4 { 1 } else { 3 };
        assert_eq!(rust.words[17], count, "{least:e}");
        let [rust, rules] = by_turned_rust_and_model(&with_least(true, Some(least)))
            .expect("upstream can take it, rotated");
        assert_eq!(rust, rules);
        assert_eq!(rust.answer.expect("the same best").words[17], count);
    }
}

/// Check 9 is numeric. It comes after 8 and 22 and before 10.
#[test]
fn check_9() {
    let number = |shot: &Shot| told(&match_shot(shot, MOST_PLACES)).number;
    for least in VALID {
        assert_eq!(number(&with_least(false, Some(least))), 0, "{least:e}");
    }
    for least in INVALID {
        let mut shot = with_least(false, Some(least));
        assert_eq!(number(&shot), 9, "{least:e}");
        shot.map |= settings::TABLE;
        shot.table[3] = 1.0f32.to_bits();
        assert_eq!(number(&shot), 9, "{least:e}");
        shot.codes[2] = 2;
        assert_eq!(number(&shot), 22, "{least:e}");
        shot.codes[2] = 16;
        assert_eq!(number(&shot), 8, "{least:e}");
        shot.least_weight = 0;
        shot.codes[2] = 7;
        assert_eq!(number(&shot), 10);
    }
}

/// Wrong programs would show, and every case comes up, in a part of the records. Upstream agrees with the rules.
#[test]
fn of_the_kind() {
    for kind in [&KINDS, &LEGACY_KINDS].map(|kinds| &kinds[OF_LEAST_WEIGHTS]) {
        let mut shown = Shown::default();
        for given in kind.first(8_000) {
            let Some(read) = records::read(&given.record) else {
                continue;
            };
            let answer = told(&match_shot(&read.shot, given.places));
            shown.add(&read.shot, given.places, &answer);
            if let Some(both) = by_rust_and_model(&read.shot) {
                let [rust, rules] = both.map(|matched| told(&matched));
                assert_eq!(rust, rules);
            }
        }
        let wrong = WRONG.iter().map(|wrong| wrong.name).zip(shown.wrong);
        let cases = CASES.iter().map(|case| case.name).zip(shown.cases);
        for (name, count) in wrong.chain(cases) {
            assert!(count > 0, "{name}, legacy {}", kind.legacy);
        }
        let invalid = INVALID.iter().zip(shown.invalid);
        for (least, count) in invalid {
            assert!(count > 0, "{least:e}, legacy {}", kind.legacy);
        }
        for (order, count) in ORDERS.iter().zip(shown.orders) {
            assert!(count > 0, "{order:?}, legacy {}", kind.legacy);
        }
    }
}
