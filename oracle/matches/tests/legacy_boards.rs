//! Legacy boards: small matches by hand, beside the examples of document 01, and the rotation by 90° by which upstream
//! answers for them.

use matches::{
    Alignment, MARKER_WORDS, TurnedShot, by_rust_and_model, by_turned_rust_and_model, match_shot,
    text,
};
use records::Shot;

/// The record of document 01 with the legacy flag: its markers are on the squares (0, 0) and (1, 1).
#[test]
fn what_the_program_prints() {
    let shot = Shot::of_document_01().marked();
    assert_eq!(
        text(&match_shot(&shot, MARKER_WORDS)),
        "placed\n\
         best 0 0 0 40317218 1\n\
         next 1 0 0 3F45C860 1\n\
         margin 3F38AA3B\n\
         placements 16\n\
         corners 0 0 0\n\
         marker 0 0 0 0 0 0 0000000000000001 00000000\n"
    );
}

/// With an odd row count the legacy flag changes nothing, and upstream answers.
#[test]
fn an_odd_row_count() {
    let mut shot = Shot::of_document_01();
    [shot.rows, shot.cols] = [3, 3];
    shot.codes = vec![15, 7, 6, 1];
    shot.table = records::built_in_table();
    let marked = shot.clone().marked();
    let texts = [&shot, &marked].map(|shot| text(&match_shot(shot, MARKER_WORDS)));
    assert!(texts[0].starts_with("placed\nbest 0 1 2 "), "{}", texts[0]);
    assert_eq!(texts[0], texts[1]);
    assert!(by_rust_and_model(&marked).is_some());
    assert!(by_turned_rust_and_model(&marked).is_none());
}

/// 2 rows and 3 columns, of which one cell is seen; markers have one, two and three bits set. The board as it is and rotated
/// clockwise, each marker as `a` to `c`:
///
/// ```text
/// a . b        . a
/// . c .        c .
///              . b
/// ```
fn two_by_three() -> Shot {
    let mut shot = Shot::of_document_01().marked();
    shot.cols = 3;
    shot.codes = vec![1, 3, 7, 9];
    shot.table = records::built_in_table();
    shot
}

/// The bits of a code are numbered row by row: 0 and 1 above, 2 and 3 below. Rotated clockwise, 0 comes to 1, 1 to 3, 2 to
/// 0: bit 0 becomes 1, bits 0 and 1 become 1 and 3, bits 0 to 2 become 1, 3 and 0. The fourth code is of no marker.
#[test]
fn the_turned_shot() {
    let turned = TurnedShot::new(&two_by_three()).shot;
    assert!(!turned.is_legacy());
    assert_eq!([turned.rows, turned.cols], [3, 2]);
    assert_eq!(turned.codes, [2, 11, 10, 9]);
    assert_eq!(turned.cells, two_by_three().cells);
}

/// The cell (0, 0) on `c`, on square (1, 1), in rotation 0: on the rotated board `c` is on (0, 1), and the cell is seen in
/// the rotation by which (1, 0), right of it on the board as it is, comes below it: (u, v) to (-v, u), rotation 3.
#[test]
fn a_placement_carried() {
    let turned = TurnedShot::new(&two_by_three());
    let at = |turn, tx, ty| Alignment { turn, tx, ty };
    for (before, after) in [
        (at(0, 1, 1), at(3, 0, 1)),
        (at(0, 0, 0), at(3, 1, 0)),
        (at(0, 2, 0), at(3, 1, 2)),
        // The cells (5, 7) and (6, 7) on the squares (1, 1) and (1, 0), then on (0, 1) and (1, 1).
        (at(1, -6, 6), at(0, -5, -6)),
        (at(2, 0, 0), at(1, 1, 0)),
        (at(3, 2, 1), at(2, 0, 2)),
    ] {
        assert_eq!(turned.carried(before), after);
        assert_eq!(turned.back(after), before);
    }
}

/// The cell shows every bit set, so that each marker has the same evidence in all four rotations, which tie.
#[test]
fn the_rust_turned_and_the_rules() {
    let mut shot = two_by_three();
    let sample = shot.cells[0].sample.as_mut().expect("sampled");
    sample.grid.fill(0);
    let [rust, rules] = by_turned_rust_and_model(&shot).expect("upstream can take it");
    assert_eq!(rust, rules);
    let evidence: Vec<Option<u32>> = rust.placements.iter().map(|at| at.evidence).collect();
    let numbers = evidence.iter().flatten().map(|&bits| f32::from_bits(bits));
    let best = numbers.clone().max_by(f32::total_cmp);
    let tied = numbers.clone().filter(|&number| Some(number) == best);
    assert_eq!(tied.count(), 4);
    assert_eq!(evidence.len(), 24);
    assert_eq!(numbers.count(), 12);
    // The one cell contributes wherever there is a number.
    for at in &rust.placements {
        assert_eq!(at.contributing_cells, usize::from(at.evidence.is_some()));
    }
}

/// A shot whose best is alone: both choose it, and the whole answer agrees. Codes that stay as they are, where they should
/// rotate with the board, would show.
#[test]
fn an_answer_carried_back() {
    let mut shot = two_by_three();
    shot.codes = vec![6, 15, 1];
    let [rust, rules] = by_turned_rust_and_model(&shot).expect("upstream can take it");
    assert_eq!(rust, rules);
    let answer = rust.answer.expect("both choose the same best");
    assert_eq!(answer.number, 0);
    // Rotation 0 on the square (1, 1), and of the marker its cell, id, point and rotation.
    assert_eq!(answer.words[..3], [0, 1, 1]);
    assert_eq!(answer.list[..5], [0, 2, 0, 0, 0]);
    let mut wrong = TurnedShot::new(&shot).shot;
    wrong.codes = vec![6, 1, 15];
    let placed = match_shot(&wrong, MARKER_WORDS).expect("it is placed");
    assert_ne!(
        placed.best.alignment,
        TurnedShot::new(&shot).carried(Alignment {
            turn: 0,
            tx: 1,
            ty: 1
        })
    );
}
