//! Single requests of document 02, through the wrapper.

mod shots;

use charuco::{
    BoardSpec, Hypothesis, LinkCheckMode, Refusal, cell, grid, match_board,
    match_board_with_scores, read_header, validate_marker_corner_links, words,
};
use shots::{Seen, sample, whole_board};

const BOARD: BoardSpec = BoardSpec {
    rows: 4,
    cols: 5,
    bits: 4,
    border_bits: 1,
    legacy_pattern: true,
    cell_size: 0.5,
    marker_size_rel: 0.75,
};

/// No two are equal up to rotation: 8 would be a rotation of 1.
const CODES: [u64; 10] = [1, 2, 3, 4, 5, 6, 7, 9, 10, 11];

/// The four corners that are expected of a marker, from a link to a corner that no board has.
fn expected(spec: &BoardSpec, marker: u32) -> Option<[u32; 4]> {
    let links = [[marker, 1000]];
    let mode = LinkCheckMode::SubsetOk;
    let found = validate_marker_corner_links(spec, &CODES, &links, mode).expect("a good board");
    match found[..] {
        [charuco::Violation::CornerNotInNeighborhood { expected, .. }] => Some(expected),
        _ => None,
    }
}

/// 2.1: with an even row count the markers are on the squares with i + j even, numbered in row-major order. Marker 3 is on (1, 1).
#[test]
fn legacy_board_has_other_squares() {
    assert_eq!(expected(&BOARD, 3), Some([0, 1, 5, 4]));
    assert_eq!(expected(&BOARD, 1), None);
    let current = BoardSpec {
        legacy_pattern: false,
        ..BOARD
    };
    assert_eq!(expected(&current, 3), Some([1, 2, 6, 5]));
}

/// With an odd row count nothing differs.
#[test]
fn odd_rows_are_as_before() {
    let board = BoardSpec { rows: 3, ..BOARD };
    let current = BoardSpec {
        legacy_pattern: false,
        ..board
    };
    for marker in 0..8 {
        assert_eq!(expected(&board, marker), expected(&current, marker));
    }
}

/// 2.2: two codes of markers are equal up to rotation. Codes past the last marker may repeat, and a code may be equal to its own
/// rotation.
#[test]
fn codes_are_equal_up_to_rotation() {
    let board = BoardSpec {
        rows: 2,
        cols: 2,
        bits: 2,
        ..BOARD
    };
    let check = |codes: &[u64]| {
        validate_marker_corner_links(&board, codes, &[], LinkCheckMode::SubsetOk)
            .map(|found| found.len())
    };
    for alike in [1, 2, 4, 8] {
        assert_eq!(check(&[1, alike, 15]), Err(Refusal::CodesAlike));
    }
    assert_eq!(check(&[1, 3, 1, 3, 12]), Ok(0));
    assert_eq!(check(&[0, 15]), Ok(0));
    assert_eq!(check(&[16, 16]), Err(Refusal::CodeOutOfRange));
}

/// Bit 4 of the map byte is the legacy flag, and adds no field; bits 6 and 7 are spare.
#[test]
fn map_byte_has_the_legacy_flag() {
    let sheet = sample("legacy");
    let marked = read_header(&sheet).expect("a whole record");
    assert!(marked.spec.legacy_pattern && marked.map & 16 != 0);
    let mut cleared = sheet.clone();
    cleared[0] &= !16;
    let header = read_header(&cleared).expect("a whole record");
    let spec = BoardSpec {
        legacy_pattern: true,
        ..header.spec
    };
    assert!(!header.spec.legacy_pattern && spec == marked.spec);
    for bit in 6..8 {
        cleared[0] = sheet[0] | 1 << bit;
        assert_eq!(
            read_header(&cleared)
                .map_err(|refusal| refusal.number())
                .err(),
            Some(21)
        );
    }
}

/// 2.3: a record whose last cell repeats its cell 7. The match refuses it; every field can still be read.
#[test]
fn repeated_point_is_read_and_not_matched() {
    let sheet = sample("repeated");
    let single = sample("narrow");
    assert!(match_board(&single).is_ok());
    assert_eq!(match_board(&sheet), Err(Refusal::RepeatedPoint));
    let mut header = read_header(&single).expect("a whole record");
    header.cells += 1;
    assert_eq!(read_header(&sheet), Ok(header));
    for k in 0..header.cells {
        let place = if k == 15 { 7 } else { k };
        let there = cell(&single, place);
        assert!(matches!(there, Ok(Some(_))));
        assert_eq!(cell(&sheet, k), there);
        assert_eq!(grid(&sheet, k), grid(&single, place));
    }
}

/// The last cell of that record, sampled or not, at every nearby position: it is refused exactly where another cell is.
#[test]
fn points_beside_are_not_repeated() {
    let sheet = sample("repeated");
    let point = |k| {
        let there = cell(&sheet, k).expect("a whole record").expect("a cell");
        [there.u, there.v]
    };
    let others: Vec<_> = (0..15).map(point).collect();
    // A cell has its position in 4 bytes; if it is sampled, 5 more and a grid of 6 by 6.
    let at = sheet.len() - 45;
    let map = at - 15 * 45 - 2;
    let mut unsampled = sheet[..at + 4].to_vec();
    assert_eq!(unsampled[map..map + 2], [0xFF, 0xFF]);
    unsampled[map + 1] = 0x7F;
    for mut record in [sheet.clone(), unsampled] {
        let mut refused = 0;
        for v in -10_i16..=-4 {
            for u in 13_i16..=21 {
                record[at..at + 2].copy_from_slice(&u.to_le_bytes());
                record[at + 2..at + 4].copy_from_slice(&v.to_le_bytes());
                assert_eq!(read_header(&record).map(|header| header.cells), Ok(16));
                let is_refused = match_board(&record) == Err(Refusal::RepeatedPoint);
                assert_eq!(is_refused, others.contains(&[u.into(), v.into()]));
                refused += usize::from(is_refused);
            }
        }
        assert_eq!(refused, others.len());
    }
}

/// Counts of the best and of the runner-up, and whether the runner-up's evidence is a number. The best is the identity.
fn counts(cells: [Seen; 6]) -> (usize, usize, bool) {
    let record = whole_board(cells);
    let placed = match_board(&record).expect("a placed shot");
    let at = |hypothesis: Hypothesis| {
        let alignment = hypothesis.alignment;
        (alignment.turn, alignment.tx, alignment.ty)
    };
    let next = placed.runner_up.expect("a runner-up");
    assert_eq!(placed.placements, 2);
    assert_eq!((at(placed.best), at(next)), ((0, 0, 0), (2, 2, 1)));
    assert!(placed.best.evidence.is_some());
    let counts = [placed.best.contributing_cells, next.contributing_cells];
    let mut values = [0; 19];
    words::match_board(&record, &mut [0; 6 * 18], &mut values);
    assert_eq!([values[17], values[18]].map(|word| word as usize), counts);
    (counts[0], counts[1], next.evidence.is_some())
}

/// 2.5: the cells with weight above 0 on a marker's square are counted, and the evidence is `None` exactly if there are none.
///
/// On a board of 2 rows and 3 columns the markers 0, 1, 2 are on (1, 0), (0, 1), (2, 1). Six cells fit in turns 0 and 2 only. In turn 0 cell k
/// is on square (k mod 3, k / 3): cells 1, 3, 5 are on markers' squares. Turn 2 maps (u, v) to (2 - u, 1 - v): cells 0, 2, 4 are
/// on the squares of markers 2, 1, 0.
#[test]
fn contributing_cells_are_counted() {
    let (first, second, black) = (Some((1.0, 1)), Some((0.25, 15)), Some((1.0, 15)));
    let weightless = Some((0.0, 7));
    // In turn 0 cells 1 and 3 contribute, the second with weight 0.5; cell 5 has weight 0. In turn 2 cells 0 and 4 are unsampled; cell 2 has weight 0.
    let none = [None, first, weightless, second, None, weightless];
    assert_eq!(counts(none), (2, 0, false));
    // Cell 4, whose code is not marker 0's, contributes in turn 2.
    let one = [None, first, weightless, second, black, weightless];
    assert_eq!(counts(one), (2, 1, true));
    // So do cells 0 and 2; cell 3 is unsampled.
    let three = [black, first, Some((0.125, 7)), None, black, weightless];
    assert_eq!(counts(three), (1, 3, true));
}

/// The codes of `whole_board` after each turn.
const TURNED: [[u64; 4]; 3] = [[1, 2, 8, 4], [15; 4], [7, 11, 14, 13]];

/// An unsampled cell, two with weight 0, and three of other weights.
const SEEN: [Seen; 6] = [
    None,
    Some((1.0, 1)),
    Some((0.0, 7)),
    Some((0.25, 15)),
    Some((-0.0, 4)),
    Some((1.0, 13)),
];

const WEIGHTLESS: [Seen; 6] = [None, Some((0.0, 1)), None, Some((-0.0, 15)), None, None];

/// The record of these cells with the table of document 01's example, by which a bit adds 0 if it is as expected, else -1, and with this minimum
/// margin.
fn with_scores_to_tell(cells: [Seen; 6], minimum_margin: f32) -> Vec<u8> {
    let mut record = whole_board(cells);
    record[0] = 0x09;
    let mut fields = minimum_margin.to_le_bytes().to_vec();
    for entry in [-1.0_f32; 256].into_iter().chain([0.0; 255]) {
        fields.extend(entry.to_le_bytes());
    }
    record.splice(1..1, fields);
    record
}

/// Where the number of columns and the number of codes are in such a record.
const COLS: usize = 1 + 4 + 511 * 4 + 1;
const CODE_COUNT: usize = COLS + 11;

/// The bit patterns of all scores for so many markers: that of a cell is 0 less the number of bits in which its code is not the marker's.
fn scores_of(cells: [Seen; 6], markers: usize) -> Vec<u32> {
    let of_cell = |seen: Seen| {
        let codes = TURNED[..markers].iter().flatten();
        codes.map(move |expected| match seen {
            None => 0.0_f32,
            Some((_, code)) => 0.0 - (code ^ expected).count_ones() as f32,
        })
    };
    cells
        .into_iter()
        .flat_map(of_cell)
        .map(f32::to_bits)
        .collect()
}

/// Quiet and signalling NaNs of both signs, infinities, zeros and other patterns.
fn lent(places: usize) -> Vec<f32> {
    let first = [
        0x7FC0_0000_u32,
        0x7F80_0001,
        0xFFFF_FFFF,
        0xFF80_0001,
        0x7F80_0000,
        0x8000_0000,
        1,
    ];
    let patterns = first.into_iter().cycle().zip(0_u32..);
    patterns
        .take(places)
        .map(|(bits, k)| f32::from_bits(bits ^ k << 8 & 0x3F_0000))
        .collect()
}

fn bits_of(list: &[f32]) -> Vec<u32> {
    list.iter().map(|score| score.to_bits()).collect()
}

/// The result with an array of so many elements, and the array's bit patterns after the call.
fn asked(record: &[u8], places: usize) -> (Result<charuco::Match, Refusal>, Vec<u32>) {
    let mut scores = lent(places);
    let result = match_board_with_scores(record, &mut scores);
    (result, bits_of(&scores))
}

/// The array as it is before a call, with these words at its start.
fn after(written: &[u32], places: usize) -> Vec<u32> {
    let mut list = bits_of(&lent(places));
    list[..written.len()].copy_from_slice(written);
    list
}

/// 2.6: the scores by cell, then marker, then turn, also those of cells with weight 0. A fourth code is none of a marker.
#[test]
fn score_array_is_filled() {
    let expected = scores_of(SEEN, 3);
    assert_eq!(expected.len(), 72);
    let record = with_scores_to_tell(SEEN, 0.05);
    let mut with_more_codes = record.clone();
    with_more_codes[CODE_COUNT] = 4;
    with_more_codes.splice(CODE_COUNT + 26..CODE_COUNT + 26, [0; 8]);
    for record in [record, with_more_codes] {
        let placed = match_board(&record).expect("a placed shot");
        assert_eq!(placed.placements, 2);
        for places in [72, 73, 80, 400] {
            let (result, list) = asked(&record, places);
            assert_eq!(result.as_ref(), Ok(&placed));
            assert_eq!(list, after(&expected, places));
        }
        for places in [0, 1, 36, 71] {
            let (result, list) = asked(&record, places);
            assert_eq!(result, Err(Refusal::ScoreListTooShort));
            assert_eq!(list, bits_of(&lent(places)));
        }
    }
}

/// Refusals 15, 16 and 17 come after the scores. A board of two columns has two markers, and is too narrow for the cells.
#[test]
fn later_refusals_leave_the_score_array_filled() {
    let mut narrow = with_scores_to_tell(SEEN, 0.05);
    narrow[COLS] = 2;
    let cases = [
        (15, narrow, scores_of(SEEN, 2)),
        (16, with_scores_to_tell(SEEN, 3.0), scores_of(SEEN, 3)),
        (
            17,
            with_scores_to_tell(WEIGHTLESS, -1.0),
            scores_of(WEIGHTLESS, 3),
        ),
    ];
    for (number, record, expected) in cases {
        let refusal = match_board(&record).expect_err("a refused shot");
        assert_eq!(refusal.number(), number);
        for more in [0, 1, 9] {
            let places = expected.len() + more;
            let (result, list) = asked(&record, places);
            assert_eq!(result, Err(refusal));
            assert_eq!(list, after(&expected, places), "refused {number}");
        }
        let (result, list) = asked(&record, expected.len() - 1);
        assert_eq!(result, Err(Refusal::ScoreListTooShort));
        assert_eq!(list, bits_of(&lent(expected.len() - 1)));
    }
}

/// Refusals by checks before 24 leave every bit of the score array, whatever its length.
#[test]
fn earlier_refusals_leave_the_score_array() {
    let record = with_scores_to_tell(SEEN, 0.05);
    let mut no_row = record.clone();
    no_row[COLS - 1] = 0;
    let mut bad_fraction = SEEN;
    bad_fraction[5] = Some((2.0, 13));
    let cases = [
        (Refusal::InvalidRecord, record[..record.len() - 1].to_vec()),
        (Refusal::InvalidSize, no_row),
        (
            Refusal::InvalidSettings,
            with_scores_to_tell(SEEN, f32::NAN),
        ),
        (
            Refusal::InvalidSample,
            with_scores_to_tell(bad_fraction, 0.05),
        ),
    ];
    for (refusal, record) in cases {
        for places in [0, 1, 71, 72, 80] {
            let (result, list) = asked(&record, places);
            assert_eq!(result, Err(refusal));
            assert_eq!(list, bits_of(&lent(places)));
        }
    }
}

/// 14 before 24, whose refusals change neither array nor `values`; 24 before 15.
#[test]
fn score_array_is_checked_after_the_markers() {
    let mut narrow = with_scores_to_tell(SEEN, 0.05);
    let whole = narrow.clone();
    narrow[COLS] = 2;
    for (record, needed) in [(whole, 72), (narrow, 48)] {
        for (words, places, number) in [
            (107, needed, 14),
            (107, needed - 1, 14),
            (108, needed - 1, 24),
        ] {
            let (mut scores, mut markers, mut values) = (lent(places), vec![9; words], [7; 19]);
            assert_eq!(
                words::match_board_with_scores(&record, &mut scores, &mut markers, &mut values),
                number
            );
            assert_eq!(bits_of(&scores), bits_of(&lent(places)));
            assert_eq!((markers, values), (vec![9; words], [7; 19]));
        }
    }
}
