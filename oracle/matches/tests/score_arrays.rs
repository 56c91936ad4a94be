//! The rule for score arrays (document 02, 2.6), by small examples.

use cases::prng::Prng;
use matches::given::{LENGTHS, Length, ScoreArray};
use matches::{MARKER_WORDS, WithScores, match_record, match_record_with_scores, scores, told};
use records::{Cell, Shot, UNSAMPLED, built_in_table, write};

/// By the table of document 01's example a score is 0 less the number of bits that differ. Its cell shows code 1, whose rotations
/// are 1, 2, 8 and 4 (P4); those of code 15 are equal.
const SCORES: [f32; 8] = [0.0, -2.0, -2.0, -2.0, -3.0, -3.0, -3.0, -3.0];

fn asked(shot: &Shot, elements: usize) -> WithScores {
    let places = shot.cells.len() * MARKER_WORDS;
    match_record_with_scores(&write(shot).bytes, places, elements)
}

fn bits(scores: &[f32]) -> Vec<u32> {
    scores.iter().map(|score| score.to_bits()).collect()
}

#[test]
fn example_of_document_01() {
    let shot = Shot::of_document_01();
    let record = write(&shot).bytes;
    let answer = told(&match_record(&record, MARKER_WORDS));
    for elements in [8, 9, 1000] {
        let filled = asked(&shot, elements);
        assert_eq!(filled.answer, answer);
        assert_eq!(filled.scores, bits(&SCORES));
        // No slope and floor give this table.
        assert!(filled.by_rule.is_none());
    }
    for elements in [0, 1, 7] {
        let refused = asked(&shot, elements);
        assert_eq!(refused.answer.number, 24);
        assert!(refused.scores.is_empty());
    }
}

/// A cell that is not sampled has 0; one of weight 0 has its scores. A third code is none of a marker. With the legacy flag the
/// markers are on other squares, and the scores are the same.
#[test]
fn cells_and_codes() {
    let mut shot = Shot::of_document_01();
    let seen = shot.cells[0].clone();
    let mut weightless = Cell {
        u: 1,
        ..seen.clone()
    };
    if let Some(sample) = &mut weightless.sample {
        sample.fraction = 0;
    }
    shot.cells = vec![Cell { v: 1, ..UNSAMPLED }, weightless, seen];
    shot.codes.push(7);
    let expected = [bits(&[0.0; 8]), bits(&SCORES), bits(&SCORES)].concat();
    for shot in [shot.clone(), shot.marked()] {
        assert_eq!(scores::count(&shot), 24);
        assert_eq!(asked(&shot, 24).scores, expected);
        assert_eq!(asked(&shot, 23).answer.number, 24);
    }
}

/// 15, 16 and 17 leave the array filled; 24 comes before them, and after 14.
#[test]
fn order_of_the_checks() {
    let placed = Shot::of_document_01();
    let mut apart = placed.clone();
    apart.cells.push(Cell { u: 9, ..UNSAMPLED });
    let mut narrow = placed.clone();
    narrow.set_minimum_margin(2.0);
    let mut weightless = placed.clone();
    weightless.set_minimum_margin(-1.0);
    for sample in weightless.samples_mut() {
        sample.fraction = 0;
    }
    for (number, shot) in [(0, placed), (15, apart), (16, narrow), (17, weightless)] {
        let needed = scores::count(&shot);
        let filled = asked(&shot, needed);
        assert_eq!(
            (filled.answer.number, filled.scores.len()),
            (number, needed)
        );
        assert_eq!(asked(&shot, needed - 1).answer.number, 24);
        let places = shot.cells.len() * MARKER_WORDS - 1;
        for elements in [needed, needed - 1] {
            let refused = match_record_with_scores(&write(&shot).bytes, places, elements);
            assert_eq!((refused.answer.number, refused.scores.len()), (14, 0));
        }
    }
}

/// With the built-in table the scores are those of upstream's matrix, and the rule gives the same. A bit that differs beyond
/// doubt adds the floor, which is -6.
#[test]
fn upstream_has_the_same_scores() {
    let mut shot = Shot::of_document_01();
    shot.map = 0;
    shot.table = built_in_table();
    shot.cells.push(Cell { u: 1, ..UNSAMPLED });
    let filled = asked(&shot, 16);
    assert_eq!(filled.by_rule.as_ref(), Some(&filled.scores));
    let expected = [SCORES.map(|score| 6.0 * score), [0.0; 8]].concat();
    assert_eq!(filled.scores, bits(&expected));
}

#[test]
fn arrays_have_the_lengths_of_their_names() {
    let record = write(&Shot::of_document_01()).bytes;
    let mut prng = Prng::new(1);
    for length in LENGTHS {
        for _ in 0..100 {
            let elements = ScoreArray::of_length(&mut prng, &record, length)
                .words
                .len();
            let is_so = match length {
                Length::Empty => elements == 0,
                Length::Shorter => (1..8).contains(&elements),
                Length::OneShort => elements == 7,
                Length::Exact => elements == 8,
                Length::Longer => elements > 8,
            };
            assert!(is_so, "{length:?}: {elements}");
            assert_eq!(length.is_enough(), elements >= 8);
        }
    }
}
