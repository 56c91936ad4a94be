//! Check 22 (document 02, 2.2) in a match: what it refuses, where it is in the order, and that upstream places what it
//! refuses.

use matches::{
    MARKER_WORDS, by_rust_and_model, by_rust_without_22, by_turned_rust_and_model, match_shot, told,
};
use records::{Shot, built_in_table, settings};

/// The record of document 01 on 2 rows and 3 columns, by the built-in table; the cell shows code 1.
fn shot(codes: &[u64]) -> Shot {
    Shot {
        cols: 3,
        codes: codes.to_vec(),
        table: built_in_table(),
        map: 0,
        ..Shot::of_document_01()
    }
}

fn number(shot: &Shot) -> u32 {
    told(&match_shot(shot, MARKER_WORDS)).number
}

/// Code 1 of side 2 in its rotations is 1, 2, 8 and 4 (P4 of document 01).
#[test]
fn markers_that_look_alike() {
    for mark in [Shot::marked, |shot| shot] {
        let number = |codes: &[u64]| number(&mark(shot(codes)));
        assert_eq!(number(&[1, 15, 3]), 0);
        for turned in [1, 2, 8, 4] {
            assert_eq!(number(&[1, turned, 15]), 22);
            assert_eq!(number(&[turned, 15, 1]), 22);
            assert_eq!(number(&[15, turned, 1]), 22);
            // Past the last marker.
            assert_eq!(number(&[1, 15, 3, turned]), 0);
            assert_eq!(number(&[1, 15, 3, turned, turned]), 0);
        }
        assert_eq!(number(&[1, 15, 0]), 0, "two that their turns keep");
        assert_eq!(number(&[1, 15, 15]), 22);
    }
}

/// After 8, and before 9 and all later ones.
#[test]
fn the_order() {
    let mut alike = shot(&[1, 15, 2]);
    assert_eq!(number(&alike), 22);
    alike.map |= settings::PX_PER_SQUARE | settings::TABLE;
    alike.px_per_square = f32::NAN.to_bits();
    alike.table[0] = 1.0f32.to_bits();
    let sample = alike.cells[0].sample.as_mut().expect("sampled");
    sample.fraction = 2.0f32.to_bits();
    alike.cells[0].u = 4097;
    assert_eq!(number(&alike), 22);
    alike.codes[1] = 16;
    assert_eq!(number(&alike), 8);
}

/// It makes no check of the rotations of codes. Nothing of such a board is compared with it.
#[test]
fn the_rust_places_them() {
    for mark in [Shot::marked, |shot| shot] {
        let mut alike = mark(shot(&[1, 15, 2]));
        alike.set_minimum_margin(0.0);
        let placed = by_rust_without_22(&alike).expect("upstream can take it");
        assert_eq!(placed.expect("it is placed").markers.len(), 1);
        assert!(by_rust_and_model(&alike).is_none());
        assert!(by_turned_rust_and_model(&alike).is_none());
        alike.codes = vec![1, 2];
        let refused = by_rust_without_22(&alike).expect("a check of the board");
        assert_eq!(refused.expect_err("a code too few").number, 7);
    }
}
