//! The counts of contributing cells (document 02, 2.5), on a small board by hand; and that upstream's own are compared.

use cases::cells::Cell as Grid;
use matches::given::{KINDS, OF_COUNTS};
use matches::{
    Hypothesis, MARKER_WORDS, by_rust_and_model, by_turned_rust_and_model, match_shot, text, told,
};
use records::{Cell, Sample, Shot, settings};

const LEAST: f32 = f32::from_bits(1);

/// 2 rows and 3 columns with a cell on each square. They fit as they are and rotated by a half, and then those on markers
/// come to the other squares, and those to markers. Markers by their ids, without the legacy flag and with it; the cells:
///
/// ```text
/// . 0 .    0 . 1    0 1 2
/// 1 . 2    . 2 .    3 4 5
/// ```
///
/// A cell on a marker shows it, the others are white, so that they are best as they are. A letter is for each cell the
/// fraction it has: 1, a quarter, the least, 0 or minus 0. `w` is one of fraction 1 that is white, wherever it is, and `n`
/// one that is not sampled.
fn shot(legacy: bool, border_threshold: f32, letters: &str) -> Shot {
    let codes = vec![1, 3, 7];
    let mut shown = [0; 6];
    let markers = if legacy { [0, 2, 4] } else { [1, 3, 5] };
    for (place, &code) in markers.into_iter().zip(&codes) {
        shown[place] = code;
    }
    let cells = letters.chars().zip(shown).enumerate();
    let cells = cells.map(|(place, (letter, code))| {
        let fraction = match letter {
            '1' | 'w' => Some(1.0),
            'q' => Some(0.25),
            'l' => Some(LEAST),
            '0' => Some(0.0),
            '-' => Some(-0.0),
            'n' => None,
            _ => unreachable!("no such letter"),
        };
        let code = if letter == 'w' { 0 } else { code };
        let grid = Grid::of_code([2, 1], 128, code).grid;
        Cell {
            u: (place % 3) as i16,
            v: (place / 3) as i16,
            sample: fraction.map(|fraction| Sample::new(fraction, 128, grid)),
        }
    });
    let mut shot = Shot {
        cols: 3,
        codes,
        cells: cells.collect(),
        map: settings::BORDER_THRESHOLD,
        border_threshold: border_threshold.to_bits(),
        ..Shot::default()
    };
    shot.set_minimum_margin(-1.0);
    if legacy { shot.marked() } else { shot }
}

/// Border threshold, letters without the legacy flag, and the counts. With the legacy flag the same letters are one place to
/// the right, and the last one first.
const BY_HAND: [(f32, &str, [usize; 2]); 13] = [
    (0.5, "111111", [3, 3]),
    (0.5, "n1n1n1", [3, 0]),
    (0.5, "n1nnnn", [1, 0]),
    (0.5, "11nnn1", [2, 1]),
    (0.5, "110n10", [1, 2]),
    (0.5, "1q1n10", [1, 3]),
    // A cell contributes though no marker is emitted of it.
    (0.5, "n1nwn1", [3, 0]),
    // A weight is above 0 or not, whatever its size.
    (0.5, "qqlq-l", [3, 2]),
    (1.0, "0l-ll1", [3, 1]),
    // Half of the least float is 0.
    (2.0, "0l-ll1", [1, 0]),
    // All weights of sampled cells are 1.
    (0.0, "010nn-", [2, 2]),
    (-1.0, "n0-ln0", [3, 1]),
    (-0.0, "nnn0n1", [2, 0]),
];

fn of_each_mark() -> impl Iterator<Item = (Shot, [usize; 2])> {
    BY_HAND.iter().flat_map(|&(threshold, letters, counts)| {
        let (before, last) = letters.split_at(5);
        let moved = format!("{last}{before}");
        let shots = [(false, letters), (true, &moved)];
        shots.map(|(legacy, letters)| (shot(legacy, threshold, letters), counts))
    })
}

fn counts(best: Hypothesis, next: Option<Hypothesis>) -> [usize; 2] {
    let next = next.expect("there is another turn");
    for placement in [best, next] {
        let is_none = placement.evidence.is_none();
        assert_eq!(is_none, placement.contributing_cells == 0);
    }
    [best, next].map(|placement| placement.contributing_cells)
}

#[test]
fn by_hand() {
    for (shot, expected) in of_each_mark() {
        let matched = match_shot(&shot, 6 * MARKER_WORDS);
        let text = text(&matched);
        let placed = matched.clone().expect("it is placed");
        assert_eq!(placed.best.alignment.turn, 0);
        assert_eq!(counts(placed.best, placed.runner_up), expected);
        let [best, next] = expected;
        assert_eq!(told(&matched).words[17..], expected.map(|n| n as u32));
        let lines: Vec<&str> = text.lines().collect();
        assert!(lines[1].starts_with("best 0 0 0 "), "{text}");
        assert!(lines[1].ends_with(&format!(" {best}")), "{text}");
        assert!(lines[2].ends_with(&format!(" {next}")), "{text}");
        assert_eq!(lines[2] == "next 2 2 1 none 0", next == 0, "{text}");
    }
}

/// Of upstream and of the rules: for a legacy board those of every placement, and the answer too, as there is no tie.
#[test]
fn of_both_sides() {
    for (shot, expected) in of_each_mark() {
        if shot.is_legacy() {
            let [rust, rules] = by_turned_rust_and_model(&shot).expect("upstream can take it");
            assert_eq!(rust, rules);
            assert!(rust.is_same_runner_up);
            let answer = rust.answer.expect("both choose the same best");
            assert_eq!(answer.words[17..], expected.map(|n| n as u32));
            let of_all: Vec<usize> = rust
                .placements
                .iter()
                .map(|placement| placement.contributing_cells)
                .collect();
            assert_eq!(of_all, expected);
        } else {
            let both = by_rust_and_model(&shot).expect("upstream can take it");
            for matched in both {
                let placed = matched.expect("it is placed");
                assert_eq!(counts(placed.best, placed.runner_up), expected);
            }
        }
    }
}

/// By upstream, evidence is none exactly where the count is 0, which `counts` asserts; and more cells contribute than emit a
/// marker, or as many.
#[test]
fn of_the_kind() {
    let mut placed_shots = 0;
    for given in KINDS[OF_COUNTS].first(2_000) {
        let read = records::read(&given.record).expect("it is not damaged");
        let Some([Ok(placed), _]) = by_rust_and_model(&read.shot) else {
            continue;
        };
        placed_shots += 1;
        let [best, _] = counts(placed.best, placed.runner_up);
        assert!((1..=read.shot.cells.len()).contains(&best));
        assert!(placed.markers.len() <= best);
    }
    assert!(placed_shots > 1_000);
}
