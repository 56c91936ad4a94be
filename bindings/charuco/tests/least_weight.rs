//! Request 2.8 of document 02, through the wrapper.

mod shots;

use charuco::{
    Match, Refusal, cell, match_board, match_board_with_scores, read_header, restate, words,
};
use shots::{Seen, rows_at, sample, sample_names, whole_board};

const BIT: u8 = 1 << 5;
const NO_NUMBERS: [u32; 5] = [0x7FC0_0000, 0xFFC0_0000, 0x7F80_0001, 0xFF80_0001, u32::MAX];
const HALF: u32 = 0x3F00_0000;
const ONE: u32 = 0x3F80_0000;

/// The record with a least weight of this bit pattern, which it did not have.
fn with_least(record: &[u8], bits: u32) -> Vec<u8> {
    assert_eq!(record[0] & BIT, 0);
    let at = rows_at(record[0].into());
    let mut new = record.to_vec();
    new[0] |= BIT;
    new.splice(at..at, bits.to_le_bytes());
    new
}

/// The record without its least weight, if it has one.
fn without_least(mut record: Vec<u8>) -> Vec<u8> {
    if record[0] & BIT != 0 {
        let end = rows_at(record[0].into());
        record.drain(end - 4..end);
        record[0] &= !BIT;
    }
    record
}

/// The same result of both functions, and the scores that the second writes.
fn matched(record: &[u8]) -> (Result<Match, Refusal>, Vec<u32>) {
    let mut scores = vec![f32::NAN; 256 * 54 * 4];
    let result = match_board(record);
    assert_eq!(match_board_with_scores(record, &mut scores), result);
    (result, scores.iter().map(|score| score.to_bits()).collect())
}

/// The words of the header.
fn header_words(record: &[u8]) -> Vec<u32> {
    let mut values = vec![0; words::HEADER_WORDS];
    assert_eq!(words::read_header(record, &mut values), 0);
    values
}

/// Word 13 is the bit pattern of the field, of every NaN 7FC00000; without the field it is 0. All other words but the map byte are the same, and so is
/// the table.
#[test]
fn header_has_the_least_weight() {
    let plain = whole_board([None; 6]);
    let mut full = plain.clone();
    full[0] = 0x0F;
    let fields = [0.25_f32, 0.75, 30.0].into_iter().chain([-1.5; 511]);
    full.splice(1..1, fields.flat_map(f32::to_le_bytes));
    for record in [plain, full] {
        let mut expected = header_words(&record);
        assert_eq!(expected[13], 0);
        assert_eq!(read_header(&record).map(|h| h.least_weight), Ok(0.0));
        expected[0] |= u32::from(BIT);
        for bits in [0, 1, 0x8000_0000, HALF, ONE, 0x0403_0201, 0xFF80_0000] {
            expected[13] = bits;
            let new = with_least(&record, bits);
            assert_eq!(header_words(&new), expected);
            let header = read_header(&new).expect("a whole record");
            assert_eq!(header.least_weight.to_bits(), bits);
            for k in 0..511 {
                let entry = charuco::table_entry(&record, k);
                assert_eq!(charuco::table_entry(&new, k), entry);
            }
        }
        for bits in NO_NUMBERS {
            assert_eq!(header_words(&with_least(&record, bits))[13], 0x7FC0_0000);
        }
    }
}

/// A record that ends within the field, or has a spare bit of the map byte set.
#[test]
fn field_is_cut_short() {
    let record = with_least(&whole_board([None; 6]), HALF);
    for end in 1..5 {
        assert_eq!(read_header(&record[..end]), Err(Refusal::InvalidRecord));
    }
    for bit in 6..8 {
        let mut spare = record.clone();
        spare[0] |= 1 << bit;
        assert_eq!(read_header(&spare), Err(Refusal::InvalidRecord));
        assert_eq!(matched(&spare).0, Err(Refusal::InvalidRecord));
    }
}

/// 9: the least weight is from 0 to 1. -0.0 is 0. 9 comes after 1 and before 10.
#[test]
fn least_weight_is_from_0_to_1() {
    let record = whole_board([None, Some((1.0, 1)), None, None, None, None]);
    let (placed, scores) = matched(&record);
    assert!(placed.is_ok());
    for bits in [0, 0x8000_0000, 1, 0x007F_FFFF, HALF, ONE - 1, ONE] {
        let (result, list) = matched(&with_least(&record, bits));
        assert_eq!((result, list), (placed.clone(), scores.clone()), "{bits:X}");
    }
    let beyond = [0x8000_0001, 0xBF80_0000, ONE + 1, 0x3FC0_0000, 0x7F7F_FFFF];
    let infinite = [0x7F80_0000, 0xFF80_0000];
    for bits in beyond.into_iter().chain(infinite).chain(NO_NUMBERS) {
        let mut bad = with_least(&record, bits);
        let (result, list) = matched(&bad);
        assert_eq!(result, Err(Refusal::InvalidSettings), "{bits:X}");
        assert!(list.iter().all(|score| *score == f32::NAN.to_bits()));
        bad[0] |= 8;
        bad.splice(1..1, [0x3F; 2044]); // entries above 0
        assert_eq!(matched(&bad).0, Err(Refusal::InvalidSettings));
        bad[rows_at(0x28)] = 1;
        assert_eq!(matched(&bad).0, Err(Refusal::InvalidSize));
    }
}

/// The number of contributing cells of the best placement and of the runner-up.
fn counts(cells: [Seen; 6], least: u32) -> (usize, usize) {
    let placed = matched(&with_least(&whole_board(cells), least));
    let placed = placed.0.expect("a placed shot");
    let runner_up = placed.runner_up.expect("a runner-up");
    assert_eq!((placed.best.alignment.turn, placed.placements), (0, 2));
    assert_eq!(
        runner_up.evidence.is_some(),
        runner_up.contributing_cells > 0
    );
    (placed.best.contributing_cells, runner_up.contributing_cells)
}

/// Cells 1, 3 and 5 are on the squares of markers 0, 1 and 2 in turn 0, and cells 0, 2 and 4 in turn 2. The border threshold is 0.5, so that a weight
/// is twice the fraction, and 1 from 0.5 on.
#[test]
fn weights_below_the_least_one_are_0() {
    let cells = [
        Some((0.125, 0)),
        Some((1.0, 1)),
        Some((0.25, 0)),
        Some((0.25, 15)),
        None,
        Some((0.5, 7)),
    ];
    let quarter = 0x3E80_0000;
    assert_eq!(counts(cells, 0), (3, 2));
    assert_eq!(counts(cells, quarter), (3, 2));
    assert_eq!(counts(cells, quarter + 1), (3, 1));
    assert_eq!(counts(cells, HALF), (3, 1));
    assert_eq!(counts(cells, HALF + 1), (2, 0));
    assert_eq!(counts(cells, ONE), (2, 0));
}

/// A cell of weight 0 is a cell in every check: 11, 12, 23, 13 and 15 take it as any other.
#[test]
fn cells_of_weight_0_are_checked() {
    let faint = |fraction| [None, Some((fraction, 1)), None, None, None, None];
    let number = |record: &[u8]| matched(record).0.map_err(|refusal| refusal.number()).err();
    let whole = with_least(&whole_board(faint(0.25)), ONE);
    assert_eq!(number(&whole), Some(16));
    let mut any_margin = whole.clone();
    any_margin[0] |= 1;
    any_margin.splice(1..1, (-1.0_f32).to_le_bytes());
    assert_eq!(number(&any_margin), Some(17));
    for fraction in [-0.25, f32::NAN] {
        let record = with_least(&whole_board(faint(fraction)), ONE);
        assert_eq!(number(&record), Some(13));
    }
    // The first cell, whose u is after the field, the sizes, three codes and the counts.
    let u = rows_at(BIT.into()) + 12 + 2 + 24 + 3;
    for (value, expected) in [(1_i16, 23), (4097, 12), (9, 15)] {
        let mut moved = whole.clone();
        moved[u..u + 2].copy_from_slice(&value.to_le_bytes());
        assert_eq!(number(&moved), Some(expected));
    }
}

/// The record with a fraction of 0 in each cell whose weight is below this least one.
fn with_fractions_of_0(record: &[u8], least: f32) -> Vec<u8> {
    let header = read_header(record).expect("a whole record");
    let mut new = record.to_vec();
    for k in 0..header.cells {
        let seen = cell(record, k).expect("a whole record").expect("a cell");
        let weight = |fraction: f32| (fraction / header.border_threshold).clamp(0.0, 1.0);
        if seen.sample.is_some_and(|s| weight(s.fraction) < least) {
            let mut values = [0; words::GRID_WORDS];
            assert_eq!(words::grid(record, k, &mut values), 0);
            // The fraction is 4 bytes, the threshold 1, then comes the grid.
            let grid = values[0] as usize;
            new[grid - 5..grid - 1].fill(0);
        }
    }
    new
}

/// A cell that is cut counts as one with fraction 0: every result is that of the record without the field in which it has that fraction. The least
/// weights are every weight of the sheet, and the floats beside it. The scores do not depend on weights.
#[test]
fn cut_cells_count_as_cells_with_fraction_0() {
    let (mut compared, mut changed) = (0, 0);
    for name in sample_names() {
        let sheet = without_least(sample(&name));
        let header = read_header(&sheet).expect("a whole record");
        assert!(header.border_threshold > 0.0, "{name}");
        let uncut = matched(&sheet);
        let mut least = vec![0, 1, HALF, ONE];
        for k in 0..header.cells {
            let seen = cell(&sheet, k).expect("a whole record").expect("a cell");
            let fraction = seen.sample.map_or(0.0, |sample| sample.fraction);
            let bits = (fraction / header.border_threshold).min(1.0).to_bits();
            least.extend([bits.saturating_sub(1), bits, (bits + 1).min(ONE)]);
        }
        least.sort_unstable();
        least.dedup();
        for bits in least {
            let expected = matched(&with_fractions_of_0(&sheet, f32::from_bits(bits)));
            assert_eq!(expected.1, uncut.1, "{name}");
            let found = matched(&with_least(&sheet, bits));
            assert_eq!(found, expected, "{name}, {bits:X}");
            compared += 1;
            changed += usize::from(found.0 != uncut.0);
        }
    }
    println!("{compared} compared, {changed} of them differ from the record without the field");
    assert!(changed > 50 && compared - changed > 50);
}

/// Where the border threshold is not above 0 every sampled cell has weight 1, and none is cut.
#[test]
fn no_cell_is_cut_at_weight_1() {
    let cells = [None, Some((0.0, 1)), Some((0.25, 7)), None, None, None];
    for threshold in [0.0_f32, -0.0, -1.0] {
        let mut record = whole_board(cells);
        record[0] |= 2;
        record.splice(1..1, threshold.to_le_bytes());
        let uncut = matched(&record);
        assert!(uncut.0.is_ok());
        assert_eq!(matched(&with_least(&record, ONE)), uncut);
    }
}

/// Turn, tx and ty of a line or of a result.
type Placed = (u32, i32, i32);

/// With its least weight far-wall.shot is placed as the second model places it and as its image was drawn, without it elsewhere.
#[test]
fn far_wall_is_placed_by_its_least_weight() {
    let sheet = sample("far-wall");
    let at = |placed: Match| {
        let alignment = placed.best.alignment;
        (alignment.turn, alignment.tx, alignment.ty)
    };
    let numbers = |line: &str| -> Placed {
        let mut words = line.split_whitespace().skip(1);
        let mut next = || words.next()?.parse::<i32>().ok();
        let [turn, tx, ty] = [next(), next(), next()].map(|n| n.expect("a number"));
        (turn.cast_unsigned(), tx, ty)
    };
    let line = |file: &str, start: &str| -> Placed {
        let text = std::fs::read_to_string(format!("../../samples/{file}")).expect("a text");
        numbers(text.lines().find(|l| l.starts_with(start)).expect("a line"))
    };
    let truth = line("truth.tsv", "far-wall");
    assert_eq!(line("far-wall.txt", "best"), truth);
    assert_eq!(matched(&sheet).0.map(at), Ok(truth));
    let elsewhere = matched(&without_least(sheet)).0.map(at);
    assert_ne!(elsewhere, Ok(truth));
}

/// Restating keeps the field.
#[test]
fn restated_record_keeps_its_least_weight() {
    let legacy = sample("legacy");
    let mut sheet = vec![0; legacy.len() + 4];
    for bits in [0, HALF, 0xFF80_0001] {
        let record = with_least(&legacy, bits);
        assert_eq!(restate(&record, &mut sheet), Ok(record.len()));
        assert_eq!(sheet, with_least(&sample("legacy-restated"), bits));
    }
}
