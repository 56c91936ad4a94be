//! The likelihood table and the rule for a score, which are not in the upstream text, compared with it.

use cases::cells::{BORDERS, Cell};
use cases::codes::{SIDES, TURNS, patterns, random_code};
use cases::prng::Prng;
use cases::tables::SLOPES_AND_FLOORS;
use theirs::{
    BUILT_IN, Samples, ScoreBoard, is_table, likelihood_table, read_code, rotate_code,
    score_by_table,
};

#[test]
fn the_built_in_table() {
    let table = likelihood_table(BUILT_IN);
    let entry = |d: usize| table[d + 255].to_bits();
    assert_eq!([entry(29), entry(31)], [0xBC87_704C, 0xBC4C_A869]);
    let minus_zeros = table.iter().filter(|entry| entry.to_bits() == 0x8000_0000);
    assert_eq!(minus_zeros.count(), 138);
    assert!(is_table(&table));
}

/// A cell of one bit for every threshold and grey: its score is the one entry that is added to 0.
#[test]
fn entries_are_what_the_rust_adds() {
    let thresholds = 0..=u8::MAX;
    let of_threshold = |threshold| (0..=u8::MAX).map(move |grey| one_bit(threshold, grey));
    let cells: Vec<Cell> = thresholds.flat_map(of_threshold).collect();
    let samples = Samples::new(&cells);
    let board = ScoreBoard::new(1, &[0, 1]);
    for slope_and_floor in SLOPES_AND_FLOORS {
        let table = likelihood_table(slope_and_floor);
        let scores = board.scores(&samples, slope_and_floor);
        for (place, cell) in cells.iter().enumerate() {
            let entry = usize::from(cell.threshold) + 255 - usize::from(cell.grid[4]);
            let added = [table[510 - entry], table[entry]].map(|entry| 0.0 + entry);
            let of_rust = [scores.of_cell(place)[0], scores.of_cell(place)[4]];
            let [added, of_rust] = [added, of_rust].map(|two| two.map(f32::to_bits));
            assert_eq!(of_rust, added, "{slope_and_floor:?} {cell:?}");
        }
    }
}

fn one_bit(threshold: u8, grey: u8) -> Cell {
    let grid = vec![0, 0, 0, 0, grey, 0, 0, 0, 0];
    Cell::new([1, 1], threshold, grid)
}

#[test]
fn the_rule_gives_the_scores_of_the_rust() {
    let mut prng = Prng::new(4);
    let table = likelihood_table(BUILT_IN);
    for bits in SIDES {
        let codes = [&patterns(bits)[..], &[random_code(&mut prng, bits)]].concat();
        let board = ScoreBoard::new(bits, &codes);
        for border in BORDERS {
            let cell = Cell::random(&mut prng, [bits, border]);
            let scores = board.scores(&Samples::new(std::slice::from_ref(&cell)), BUILT_IN);
            let turns = |&code| TURNS.map(move |turn| rotate_code(code, bits, turn));
            let turned = codes.iter().flat_map(turns);
            for (code, score) in turned.zip(scores.of_cell(0)) {
                let by_rule = score_by_table(&table, &cell, code);
                assert_eq!(by_rule.to_bits(), score.to_bits(), "{code:X} {cell:?}");
            }
        }
    }
}

/// Document 01: a bit is set where the grey is below the threshold.
#[test]
fn read_codes() {
    let grid = [[0, 0, 0, 0], [0, 99, 100, 0], [0, 101, 0, 0], [0, 0, 0, 0]].concat();
    let cell = Cell::new([2, 1], 100, grid);
    assert_eq!(read_code(&cell), 0b1001);
}
