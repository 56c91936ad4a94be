//! The examples of document 01 for the match: the record of the program `place`, with the counts of document 02, 2.5, P9 and P11.

use cases::codes::{all_ones, listed_codes};
use matches::{MARKER_WORDS, match_record, match_shot, text, told};
use records::{Cell, Sample, Shot, write};
use theirs::null_score;

fn unsampled([u, v]: [i16; 2]) -> Cell {
    Cell { u, v, sample: None }
}

#[test]
fn what_the_program_prints() {
    let matched = match_record(&write(&Shot::of_document_01()).bytes, MARKER_WORDS);
    assert_eq!(
        text(&matched),
        "placed\n\
         best 0 1 0 40317218 1\n\
         next 1 1 0 3F45C860 1\n\
         margin 3F38AA3B\n\
         placements 16\n\
         corners 0 1 0\n\
         marker 0 0 0 0 0 0 0000000000000001 00000000\n"
    );
    let [one, sixty] = [1.0f32, 60.0].map(f32::to_bits);
    #[rustfmt::skip]
    let marker = [
        0, 0, 0, 0, 0, 0, 1, 0, 0, one,
        0, 0, sixty, 0, sixty, sixty, 0, sixty,
    ];
    assert_eq!(told(&matched).list, marker);
}

/// All bits of one grey: no placement has evidence above 0.
#[test]
fn p9_no_evidence_no_margin() {
    let mut shot = Shot::of_document_01();
    shot.table.fill((-1.0f32).to_bits());
    let refused = match_shot(&shot, MARKER_WORDS).expect_err("its margin is too small");
    assert_eq!((refused.number, refused.words), (16, vec![0]));
}

/// On a board of 2 rows and 3 columns the cells (0, 0) and (2, 1) fit in rotations 0 and 2, once each. Rotation 0 has no
/// marker below the one that is sampled, rotation 2 has marker 2. A runner-up that is absent cannot be had: what fits in a
/// rotation also fits in the opposite one.
#[test]
fn p9_a_runner_up_that_is_none() {
    let mut shot = Shot::of_document_01();
    shot.cols = 3;
    shot.codes = vec![15, 7, 8];
    shot.cells.push(unsampled([2, 1]));
    let placed = match_shot(&shot, 2 * MARKER_WORDS).expect("it is placed");
    assert_eq!(placed.placements, 2);
    assert_eq!(placed.margin, 1.0);
    assert_eq!(placed.best.alignment.turn, 2);
    let next = placed.runner_up.expect("there are two placements");
    assert!(next.evidence.is_none());
    assert_eq!(next.contributing_cells, 0);
    assert_eq!(placed.best.contributing_cells, 1);
}

/// Best 2, runner-up −6 and capacity 4 give 2: margins are not capped at 1, nor divided by the best.
#[test]
fn p9_a_margin_above_1() {
    let mut shot = Shot::of_document_01();
    shot.table.fill((-8.0f32).to_bits());
    shot.table[510] = 0.0f32.to_bits();
    shot.table[0] = (-8.0f32).to_bits();
    let sample = shot.cells[0].sample.as_mut().expect("sampled");
    sample.threshold = 255;
    sample.grid.fill(0);
    shot.codes = vec![15, 0];
    // Only two placements are left.
    shot.cells.push(unsampled([1, 1]));
    shot.cells.push(unsampled([0, 1]));
    let placed = match_shot(&shot, 3 * MARKER_WORDS).expect("it is placed");
    let capacity = -null_score(2);
    let evidence = |score: f32| score + capacity;
    assert_eq!(placed.best.evidence, Some(evidence(0.0)));
    let next = placed.runner_up.and_then(|next| next.evidence);
    let next = next.expect("a number");
    assert_eq!(next, evidence(-32.0));
    assert_eq!(placed.margin, (evidence(0.0) - next) / capacity);
    assert!(placed.margin > 11.0);
}

/// Ten markers of which no two are equal up to rotation have 3 by 3 bits or more. The cell shows the last one, all of whose
/// bits are set.
#[test]
fn p11_placements() {
    let placements = |far: i16| {
        let mut shot = Shot {
            rows: 4,
            cols: 5,
            bits: 3,
            codes: listed_codes(3, 10),
            border_threshold: 0,
            ..Shot::of_document_01()
        };
        shot.codes[9] = all_ones(3);
        shot.cells[0].sample = Some(Sample::new(1.0, 128, vec![0; shot.greys()]));
        shot.set_minimum_margin(f32::MIN);
        shot.cells.push(unsampled([far, 0]));
        match_shot(&shot, 2 * MARKER_WORDS)
    };
    for (far, expected) in [(2, 44), (4, 8)] {
        let placed = placements(far).expect("it is placed");
        assert_eq!(placed.placements, expected);
    }
    assert_eq!(told(&placements(5)).number, 15);
}
