//! Restated records (document 02, 2.7), by small examples: the converter, the pairing, and ties.

use cases::cells::Cell as Grid;
use cases::prng::Prng;
use matches::given::{LENGTHS, Length, sheet};
use matches::restated::{restate, restated};
use matches::{
    Alignment, MARKER_WORDS, PairedShot, Ties, by_paired_rust_and_model, match_shot, text,
};
use records::{Cell, Sample, Shot, UNSAMPLED, write};
use theirs::rotate_code;

/// A legacy board of 2 rows and 3 columns without cells; the fourth code is of no marker. The bits of a code are numbered row by
/// row, 0 and 1 above, 2 and 3 below: rotated by 180°, 0 comes to 3 and 1 to 2.
fn two_by_three(codes: [u64; 4]) -> Shot {
    Shot {
        cols: 3,
        codes: codes.to_vec(),
        ..Shot::default()
    }
    .marked()
}

/// A cell that shows a code.
fn showing(u: i16, code: u64) -> Cell {
    let grid = Grid::of_code([2, 1], 128, code);
    let sample = Some(Sample::new(1.0, grid.threshold, grid.grid));
    Cell { u, v: 0, sample }
}

#[test]
fn codes_are_reversed_and_rotated() {
    let shot = two_by_three([1, 3, 7, 5]);
    let new = restated(&shot);
    assert_eq!(new.codes, [14, 12, 8, 5]);
    let [old_bytes, new_bytes] = [&shot, &new].map(|shot| write(shot).bytes);
    assert_eq!(restate(&old_bytes, old_bytes.len()), Ok(new_bytes.clone()));
    assert_eq!([old_bytes[0], new_bytes[0]], [16, 0]);
    assert_eq!(restate(&new_bytes, new_bytes.len()), Ok(new_bytes));
    for (code, rotated) in [(1, 8), (3, 12), (7, 14), (6, 6)] {
        assert_eq!(rotate_code(code, 2, 2), rotated);
    }
}

/// With an odd row count only the flag goes.
#[test]
fn odd_rows() {
    for cols in [2, 3] {
        let mut shot = two_by_three([1, 3, 7, 0]);
        [shot.rows, shot.cols] = [3, cols];
        let old = write(&shot).bytes;
        let mut new = old.clone();
        new[0] = 0;
        assert_eq!(restate(&old, old.len()), Ok(new.clone()));
        assert_eq!(restate(&new, new.len()), Ok(new));
    }
}

/// 21, then the checks of the board, then 25, then 14. A board without the flag passes 25.
#[test]
fn order_of_the_checks() {
    let number = |record: &[u8], places| restate(record, places).map_err(|refused| refused.number);
    let mut shot = two_by_three([1, 3, 7, 5]);
    shot.cols = 2;
    let even = write(&shot).bytes;
    assert_eq!(number(&even, 0), Err(25));
    shot.codes[1] = 8;
    assert_eq!(number(&write(&shot).bytes, 0), Err(22));
    shot.codes[3] = 16;
    assert_eq!(number(&write(&shot).bytes, 0), Err(8));
    shot.codes.truncate(1);
    assert_eq!(number(&write(&shot).bytes, 0), Err(7));
    let mut broken = write(&shot).bytes;
    broken.pop();
    assert_eq!(number(&broken, 0), Err(21));
    let mut unmarked = even;
    unmarked[0] = 0;
    let needed = unmarked.len();
    assert_eq!(number(&unmarked, needed - 1), Err(14));
    assert_eq!(number(&unmarked, needed), Ok(unmarked));
}

/// What only a match refuses stays, bit for bit: signalling NaNs, a table of NaNs, a fraction below 0, a repeated cell.
#[test]
fn other_fields_stay() {
    let mut shot = two_by_three([1, 3, 7, 5]);
    shot.map |= 15;
    shot.minimum_margin = 0x7F80_0001;
    shot.set_least_weight(0xFF80_0001);
    shot.table.fill(0xFFC0_1234);
    shot.cells = vec![showing(0, 1), showing(0, 1), UNSAMPLED];
    for sample in shot.samples_mut() {
        sample.fraction = 0xC000_0000;
    }
    let old = write(&shot).bytes;
    let new = restate(&old, old.len()).expect("a board that is accepted");
    let differing: Vec<usize> = (0..old.len()).filter(|&k| old[k] != new[k]).collect();
    // The map byte, and the lowest bytes of three codes after 4 settings, 511 entries and 14 bytes of the board.
    let first = 1 + 4 * (4 + 511) + 14;
    assert_eq!(differing, [0, first, first + 8, first + 16]);
}

/// On a board of 2 rows and 3 columns the translations (tx, ty) and (2 - tx, 1 - ty) pair, of corners (3 - tx, 2 - ty).
#[test]
fn alignments_pair() {
    let paired = PairedShot::new(&two_by_three([1, 3, 7, 5]));
    let at = |turn, tx, ty| Alignment { turn, tx, ty };
    assert_eq!(paired.alignment(at(1, 5, -2)), at(3, -3, 3));
    assert_eq!(paired.alignment(at(3, -3, 3)), at(1, 5, -2));
    assert_eq!(paired.corner_alignment(at(1, 5, -1)), at(3, -2, 3));
}

/// The texts that `place` prints for a shot and for the restated one.
fn texts(shot: &Shot) -> [String; 2] {
    let places = shot.cells.len() * MARKER_WORDS;
    [shot, &restated(shot)].map(|shot| text(&match_shot(shot, places)))
}

fn ties(shot: &Shot) -> Ties {
    let ([rust, model], is_upstream) = by_paired_rust_and_model(shot).expect("a paired board");
    assert!(is_upstream);
    assert_eq!(rust.placements, model.placements);
    assert_eq!(rust.chosen, model.chosen);
    Ties::of(&rust)
}

/// Code 7 has no rotation like itself, and no other marker is as near: the best pairs. Marker 0 at (0, 0) becomes 2 at (2, 1).
#[test]
fn the_best_pairs_without_a_tie() {
    let mut shot = two_by_three([7, 3, 1, 5]);
    shot.cells = vec![showing(4, 7)];
    assert!(!ties(&shot).best);
    let [old, new] = texts(&shot);
    assert!(old.starts_with("placed\nbest 0 -4 0 40317218 1\n"), "{old}");
    assert!(new.starts_with("placed\nbest 2 6 1 40317218 1\n"), "{new}");
    assert!(
        old.ends_with("\ncorners 0 -4 0\nmarker 0 0 4 0 0 0 0000000000000007 00000000\n"),
        "{old}"
    );
    assert!(
        new.ends_with("\ncorners 2 7 2\nmarker 0 2 5 1 2 0 0000000000000007 00000000\n"),
        "{new}"
    );
}

/// The smallest board and one cell, which shows a code that a rotation by 180° keeps: it ties with itself. On both records the best
/// is that of turn 0, and these two do not pair. By the default minimum margin both are refused.
#[test]
fn a_tie_may_choose_another_best() {
    let mut shot = two_by_three([6, 1, 3, 0]);
    shot.cells = vec![showing(0, 6)];
    assert_eq!(texts(&shot), ["refused 16 00000000\n"; 2]);
    shot.set_minimum_margin(0.0);
    assert!(ties(&shot).best);
    let [old, new] = texts(&shot);
    assert_eq!(
        old,
        "placed\n\
         best 0 0 0 40317218 1\n\
         next 2 0 0 40317218 1\n\
         margin 00000000\n\
         placements 24\n\
         corners 0 0 0\n\
         marker 0 0 0 0 0 0 0000000000000006 00000000\n"
    );
    assert_eq!(
        new,
        "placed\n\
         best 0 2 1 40317218 1\n\
         next 2 2 1 40317218 1\n\
         margin 00000000\n\
         placements 24\n\
         corners 0 2 1\n\
         marker 0 2 0 0 0 0 0000000000000006 00000000\n"
    );
}

/// Two cells on the markers 0 and 1, of four placements. In turn 0 the first is read without a fault and the second with two; in
/// turn 2 each has one. A fault adds -6 and a cell 4 ln 2, so both have the evidence 8 ln 2 - 12, which is below 0. In turn 0
/// the first cell is a marker's, in turn 2 no cell is. With the cells rotated by 180° it is the other way round.
#[test]
fn a_tie_may_leave_markers_on_one_record_alone() {
    let mut shot = two_by_three([1, 12, 15, 0]);
    shot.set_minimum_margin(0.0);
    for (shown, is_old_placed) in [([1, 9], true), ([9, 8], false)] {
        let [first, second] = shown;
        shot.cells = vec![showing(0, first), showing(2, second)];
        assert!(ties(&shot).best);
        let [mut placed, mut refused] = texts(&shot);
        if !is_old_placed {
            std::mem::swap(&mut placed, &mut refused);
        }
        assert_eq!(refused, "refused 17\n");
        assert!(placed.starts_with("placed\nbest 0 "), "{placed}");
        let evidence = 8.0 * std::f32::consts::LN_2 - 12.0;
        let lines = format!(
            " {:X} 2\nmargin 00000000\nplacements 4\n",
            evidence.to_bits()
        );
        assert!(placed.contains(&lines), "{placed}");
    }
}

/// With one cell it takes a weight by which evidence of either sign is rounded to 0: here 2⁻¹⁴⁹.
#[test]
fn one_cell_may_leave_markers_on_one_record_alone() {
    let mut shot = two_by_three([4, 0, 3, 0]);
    shot.set_minimum_margin(0.0);
    shot.map |= records::settings::BORDER_THRESHOLD;
    shot.border_threshold = 1.0f32.to_bits();
    shot.cells = vec![showing(0, 15)];
    for sample in shot.samples_mut() {
        sample.fraction = 1;
        for (place, grey) in [(5, 124), (6, 0), (9, 122), (10, 126)] {
            sample.grid[place] = grey;
        }
    }
    assert!(ties(&shot).best);
    let [old, new] = texts(&shot);
    assert!(old.starts_with("placed\nbest 0 1 1 00000000 1\n"), "{old}");
    assert_eq!(new, "refused 17\n");
}

#[test]
fn arrays_have_the_lengths_of_their_names() {
    let record = write(&two_by_three([1, 3, 7, 5])).bytes;
    let needed = record.len();
    let mut prng = Prng::new(1);
    for length in LENGTHS {
        for _ in 0..100 {
            let places = sheet(&mut prng, &record, length).len();
            let is_so = match length {
                Length::Empty => places == 0,
                Length::Shorter => (1..needed).contains(&places),
                Length::OneShort => places == needed - 1,
                Length::Exact => places == needed,
                Length::Longer => places > needed,
            };
            assert!(is_so, "{length:?}: {places}");
        }
    }
}
