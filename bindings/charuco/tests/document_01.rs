//! Document 01's example and table, through the safe functions.

use charuco::*;

/// The record of document 01's example: one sampled cell, with marker 0's code.
fn example() -> Vec<u8> {
    let mut record = vec![0x08];
    for entry in [-1.0_f32; 256].into_iter().chain([0.0; 255]) {
        record.extend(entry.to_le_bytes());
    }
    record.extend([2, 2, 2, 1]);
    record.extend(1.0_f32.to_le_bytes());
    record.extend(0.5_f32.to_le_bytes());
    record.extend(2_u16.to_le_bytes());
    record.extend(1_u64.to_le_bytes());
    record.extend(15_u64.to_le_bytes());
    record.extend([1, 0, 1]);
    record.extend([0; 4]);
    record.extend(1.0_f32.to_le_bytes());
    record.push(128);
    record.extend(GRID);
    record
}

const GRID: [u8; 16] = [0, 0, 0, 0, 0, 0, 255, 0, 0, 255, 255, 0, 0, 0, 0, 0];

const BOARD: BoardSpec = BoardSpec {
    rows: 4,
    cols: 5,
    bits: 4,
    border_bits: 1,
    legacy_pattern: false,
    cell_size: 0.5,
    marker_size_rel: 0.75,
};

const CODES: [u64; 10] = [1, 2, 3, 4, 5, 6, 7, 9, 10, 11];

#[test]
fn example_is_placed() {
    let placed = match_board(&example()).expect("a placed shot");
    let at = |turn, tx, ty| Alignment { turn, tx, ty };
    let hypothesis = |alignment, bits| Hypothesis {
        alignment,
        evidence: Some(f32::from_bits(bits)),
        contributing_cells: 1, // document 02, 2.5
    };
    assert_eq!(placed.best, hypothesis(at(0, 1, 0), 0x4031_7218));
    assert_eq!(placed.runner_up, Some(hypothesis(at(1, 1, 0), 0x3F45_C860)));
    assert_eq!(placed.margin.to_bits(), 0x3F38_AA3B);
    assert_eq!(placed.placements, 16);
    assert_eq!(placed.corners, at(0, 1, 0));
    assert_eq!(
        placed.markers,
        [Marker {
            cell: 0,
            id: 0,
            point: [0, 0],
            turn: 0,
            differing_bits: 0,
            code: 1,
            quotient: 0.0,
            fraction: 1.0,
            rectified: [[0.0, 0.0], [60.0, 0.0], [60.0, 60.0], [0.0, 60.0]],
        }]
    );
}

#[test]
fn example_is_read() {
    let record = example();
    let header = read_header(&record).expect("a whole record");
    assert_eq!((header.map, header.codes, header.cells), (8, 2, 1));
    assert_eq!((header.spec.rows, header.spec.cols), (2, 2));
    assert_eq!(
        (
            header.minimum_margin,
            header.border_threshold,
            header.px_per_square
        ),
        (0.05, 0.5, 60.0)
    );
    assert_eq!(table_entry(&record, 255), Ok(Some(-1.0)));
    assert_eq!(table_entry(&record, 256), Ok(Some(0.0)));
    assert_eq!(table_entry(&record, 511), Ok(None));
    assert_eq!(code(&record, 1), Ok(Some(15)));
    assert_eq!(code(&record, 2), Ok(None));
    let sample = Some(Sample {
        fraction: 1.0,
        threshold: 128,
    });
    assert_eq!(cell(&record, 0), Ok(Some(Cell { u: 0, v: 0, sample })));
    assert_eq!(cell(&record, 1), Ok(None));
    assert_eq!(grid(&record, 0), Ok(&GRID[..]));
    assert_eq!(grid(&record, usize::MAX), Ok(&[][..]));
}

#[test]
fn cut_record_is_refused() {
    let record = example();
    let cut = &record[..record.len() - 1];
    assert_eq!(read_header(cut), Err(Refusal::InvalidRecord));
    assert_eq!(table_entry(cut, 0), Err(Refusal::InvalidRecord));
    assert_eq!(code(cut, 0), Err(Refusal::InvalidRecord));
    assert_eq!(cell(cut, 0), Err(Refusal::InvalidRecord));
    assert_eq!(grid(cut, 0), Err(Refusal::InvalidRecord));
    assert_eq!(match_board(cut), Err(Refusal::InvalidRecord));
    assert_eq!(match_board(&[]), Err(Refusal::InvalidRecord));
}

/// Output arrays of every length, and the elements that do not change.
#[test]
fn short_arrays_get_what_fits() {
    let record = example();
    let mut whole = [7; 22];
    let mut markers = [9; 20];
    assert_eq!(words::match_board(&record, &mut markers, &mut whole), 0);
    assert_eq!(whole[19..], [7; 3]);
    assert_eq!(markers[18..], [9; 2]);
    for length in 0..19 {
        let mut values = vec![7; length];
        assert_eq!(words::match_board(&record, &mut markers, &mut values), 0);
        assert_eq!(values, whole[..length]);
    }
    let mut too_short = [9; 17];
    let mut values = [7; 19];
    assert_eq!(
        words::match_board(&record, &mut too_short, &mut values),
        Refusal::ListTooShort.number()
    );
    assert_eq!((too_short, values), ([9; 17], [7; 19]));
}

/// Refusals 7 and 16 have values.
#[test]
fn values_of_refusals() {
    let corners = &[];
    let at = Alignment {
        turn: 0,
        tx: 0,
        ty: 0,
    };
    assert_eq!(
        map_charuco_corners(&BOARD, &CODES[..3], corners, at),
        Err(Refusal::NotEnoughDictionaryCodes {
            needed: 10,
            available: 3
        })
    );
    let mut record = example();
    record[0] |= 1;
    record.splice(1..1, 2.0_f32.to_le_bytes());
    assert_eq!(
        match_board(&record),
        Err(Refusal::Margin {
            margin: f32::from_bits(0x3F38_AA3B),
            minimum: 2.0
        })
    );
}

#[test]
fn cells_between_corners() {
    let corner = |u, v| Corner {
        score: 1.0,
        grid: Some([u, v]),
    };
    let corners = [corner(1, 1), corner(0, 0), corner(1, 0), corner(0, 1)];
    let cell = MarkerCell {
        u: 0,
        v: 0,
        corners: [1, 2, 0, 3],
    };
    assert_eq!(
        build_marker_cells(&corners, &[0, 1, 2, 3, 9]),
        Ok(vec![cell])
    );
    assert_eq!(build_marker_cells(&corners, &[0, 1, 2]), Ok(vec![]));
    let far = [corner(4097, 0)];
    assert_eq!(
        build_marker_cells(&far, &[]),
        Err(Refusal::CornersOutOfRange)
    );
}

/// P3 of the table: corner (1, 1) has id 0 and (4, 3) has id 11; (5, 3) and (0, 1) have none.
#[test]
fn corners_of_a_board() {
    let corner = |score, u, v| Corner {
        score,
        grid: Some([u, v]),
    };
    let corners = [
        corner(1.0, 3, 2),
        corner(1.0, 0, 0),
        corner(2.0, 0, 0),
        corner(2.0, 0, 0),
        corner(9.0, 4, 2),
        corner(9.0, -1, 0),
        Corner {
            score: 9.0,
            grid: None,
        },
    ];
    let at = |turn, tx, ty| Alignment { turn, tx, ty };
    let expected = [
        MappedCorner {
            id: 0,
            index: 2,
            at: [1, 1],
            target: [0.5, 0.5],
        },
        MappedCorner {
            id: 11,
            index: 0,
            at: [4, 3],
            target: [2.0, 1.5],
        },
    ];
    assert_eq!(
        map_charuco_corners(&BOARD, &CODES, &corners, at(0, 1, 1)),
        Ok(expected.to_vec())
    );
    for turn in [4, 256, u32::MAX] {
        assert_eq!(
            map_charuco_corners(&BOARD, &CODES, &corners, at(turn, 1, 1)),
            Err(Refusal::CornersOutOfRange)
        );
    }
}

/// P7 and P8.
#[test]
fn links_of_a_board() {
    let expected = [1, 2, 6, 5];
    let links = [[3, 1], [3, 1], [3, 9]];
    let mut violations = vec![
        Violation::CornerNotInNeighborhood {
            marker: 3,
            corner: 9,
            expected,
        },
        Violation::DuplicateCorner {
            marker: 3,
            corner: 1,
            expected,
        },
    ];
    assert_eq!(
        validate_marker_corner_links(&BOARD, &CODES, &links, LinkCheckMode::SubsetOk),
        Ok(violations.clone())
    );
    violations.push(Violation::MissingCorners {
        marker: 3,
        expected,
        missing: vec![2, 6, 5],
    });
    assert_eq!(
        validate_marker_corner_links(&BOARD, &CODES, &links, LinkCheckMode::MustMatchAll4),
        Ok(violations)
    );
    let links = [[10, 0], [2, 7]];
    assert_eq!(
        validate_marker_corner_links(&BOARD, &CODES, &links, LinkCheckMode::SubsetOk),
        Ok(vec![
            Violation::UnknownMarker {
                marker: 10,
                corner: 0
            },
            Violation::MarkerHasNoFourCorners {
                marker: 2,
                corner: 7
            },
        ])
    );
    let many = vec![[0, 0]; 4097];
    assert_eq!(
        validate_marker_corner_links(&BOARD, &CODES, &many, LinkCheckMode::SubsetOk),
        Err(Refusal::TooManyLinks)
    );
}
