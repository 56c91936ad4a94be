//! Check 23 (document 02, 2.3): what it refuses, where it is in the order, and that upstream places what it refuses.

use matches::given::{KINDS, LEGACY_KINDS, OF_REPEATS};
use matches::{
    MARKER_WORDS, by_rust_and_model, by_rust_without_23, by_turned_rust_and_model, match_record,
    match_shot, text, told,
};
use records::{Cell, Shot, built_in_table, settings, write};
use std::collections::BTreeSet;

/// The board of document 01 by the built-in table, with the cell of its record at each of these points, sampled or not.
fn shot(cells: &[(bool, [i16; 2])]) -> Shot {
    let document_01 = Shot::of_document_01();
    let sample = &document_01.cells[0].sample;
    let cell = |&(is_sampled, [u, v]): &(bool, [i16; 2])| Cell {
        u,
        v,
        sample: sample.clone().filter(|_| is_sampled),
    };
    Shot {
        map: 0,
        table: built_in_table(),
        cells: cells.iter().map(cell).collect(),
        ..document_01
    }
}

fn number(shot: &Shot) -> u32 {
    told(&match_shot(shot, shot.cells.len() * MARKER_WORDS)).number
}

#[test]
fn cells_at_one_point() {
    for mark in [Shot::marked, |shot| shot] {
        let number = |cells: &[(bool, [i16; 2])]| number(&mark(shot(cells)));
        assert_eq!(number(&[(true, [0, 0])]), 0);
        for [first, second] in [[true; 2], [true, false], [false, true], [false; 2]] {
            for point in [[0, 0], [1, -1], [-4096, 4096]] {
                let [first, second] = [(first, point), (second, point)];
                assert_eq!(number(&[first, second]), 23);
                assert_eq!(number(&[first, (true, [0, 1]), second]), 23);
            }
        }
        assert_eq!(number(&[(true, [0, 0]); 3]), 23);
    }
}

/// One coordinate alone, exchanged, negated, of another sign, and as the same number of few bits.
#[test]
fn points_nearly_alike() {
    let pairs = [
        [[0, 0], [0, 1]],
        [[0, 0], [1, 0]],
        [[0, 1], [1, 0]],
        [[0, 1], [0, -1]],
        [[1, 2], [2, 1]],
        [[1, 2], [-1, -2]],
        [[0, 0], [32, 0]],
        [[0, 32], [1, 0]],
        [[0, 0], [0, 256]],
        [[0, -1], [-1, -1]],
        [[-1, 0], [0, -1]],
        [[0, 4096], [1, -4096]],
        [[-4096, 0], [4096, 0]],
    ];
    for [first, second] in pairs {
        let number = number(&shot(&[(true, first), (true, second)]));
        assert!([0, 15, 16].contains(&number), "{first:?} and {second:?}");
    }
}

/// After 12, and before 13 and all later ones.
#[test]
fn the_order() {
    let mut twice = shot(&[(true, [0, 0]), (true, [0, 0]), (false, [32, 0])]);
    assert_eq!(number(&twice), 23, "before 15");
    let sample = twice.cells[0].sample.as_mut().expect("sampled");
    sample.fraction = 2.0f32.to_bits();
    assert_eq!(number(&twice), 23, "before 13");
    assert_eq!(told(&match_shot(&twice, 0)).number, 23, "before 14");
    twice.cells[2].u = 4097;
    assert_eq!(number(&twice), 12);
    twice.cells[2].u = 32;
    twice.cells.resize(257, twice.cells[0].clone());
    assert_eq!(number(&twice), 12);
    twice.map |= settings::TABLE;
    twice.table[0] = 1.0f32.to_bits();
    assert_eq!(number(&twice), 10);
    twice.px_per_square = f32::NAN.to_bits();
    assert_eq!(number(&twice), 9);
    twice.codes[1] = 2;
    assert_eq!(number(&twice), 22);
    twice.cells.clear();
    twice.codes[1] = 15;
    twice.px_per_square = 60.0f32.to_bits();
    twice.table[0] = 0;
    assert_eq!(number(&twice), 11);
}

/// Of the kinds that are about this, one has a repeat or an earlier fault in every record, and one has no repeat.
#[test]
fn the_kinds() {
    let before = [21, 1, 2, 3, 4, 5, 6, 7, 8, 22, 9, 10, 11, 12, 23];
    for kinds in [KINDS, LEGACY_KINDS] {
        let [repeats, nearly] = &kinds[OF_REPEATS] else {
            unreachable!("there are two")
        };
        let numbers = [repeats, nearly].map(|kind| {
            let records = kind.first(3_000);
            let matched = records.map(|given| match_record(&given.record, given.places));
            let numbers = matched.map(|matched| told(&matched).number);
            numbers.collect::<BTreeSet<u32>>()
        });
        assert_eq!(numbers, [BTreeSet::from(before), [0, 15, 16, 17].into()]);
    }
}

/// The cell of document 01 repeated: upstream counts both, so that the evidence is twice as large and the marker comes
/// twice. One that is not sampled beside it changes nothing there.
#[test]
fn the_rust_places_them() {
    let by_rust = |shot: &Shot| text(&by_rust_without_23(shot).expect("upstream can take it"));
    let cell = (true, [0, 0]);
    let once = "placed\n\
        best 0 1 0 40317218 1\n\
        next 1 1 0 C113A37A 1\n\
        margin 408A7FAC\n\
        placements 16\n\
        corners 0 1 0\n\
        marker 0 0 0 0 0 0 0000000000000001 00000000\n";
    assert_eq!(by_rust(&shot(&[cell])), once);
    let with_unsampled = shot(&[cell, (false, [0, 0])]);
    assert_eq!(by_rust(&with_unsampled), once);
    let twice = shot(&[cell; 2]);
    let counted_twice = "placed\n\
        best 0 1 0 40B17218 2\n\
        next 1 1 0 C193A37A 2\n\
        margin 408A7FAC\n\
        placements 16\n\
        corners 0 1 0\n\
        marker 0 0 0 0 0 0 0000000000000001 00000000\n\
        marker 1 0 0 0 0 0 0000000000000001 00000000\n";
    assert_eq!(by_rust(&twice), counted_twice);
    let bytes = [&with_unsampled, &twice].map(|shot| write(shot).bytes.len());
    assert_eq!(bytes, [63, 84]);
}

/// Nothing of such a shot is compared with upstream, but that an earlier check refuses it.
#[test]
fn what_is_compared() {
    for mark in [Shot::marked, |shot| shot] {
        let mut twice = mark(shot(&[(true, [0, 0]); 2]));
        let placed = by_rust_without_23(&twice).expect("upstream can take it");
        assert_eq!(placed.expect("it is placed").markers.len(), 2);
        assert!(by_rust_and_model(&twice).is_none());
        assert!(by_turned_rust_and_model(&twice).is_none());
        let sample = twice.cells[0].sample.as_mut().expect("sampled");
        sample.fraction = 2.0f32.to_bits();
        assert!(by_rust_without_23(&twice).is_none());
        for (far, codes, expected) in [(4097, [1, 15], 12), (4097, [1, 2], 22), (0, [1, 16], 8)] {
            twice.cells[1].u = far;
            twice.codes = codes.to_vec();
            let refused = by_rust_without_23(&twice).expect("an earlier check");
            assert_eq!(refused.expect_err("it is refused").number, expected);
        }
    }
}
