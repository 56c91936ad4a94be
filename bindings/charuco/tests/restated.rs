//! Request 2.7 of document 02, through the wrapper.

use charuco::{Refusal, restate};

/// A legacy board of 2 rows and 3 columns with codes of side 2, of which three are those of markers, and an unsampled cell.
#[rustfmt::skip]
const LEGACY: [u8; 54] = [
    0x10, 2, 3, 2, 1, 0, 0, 0x80, 0x3F, 0, 0, 0, 0x3F, 4, 0,
    1, 0, 0, 0, 0, 0, 0, 0, 3, 0, 0, 0, 0, 0, 0, 0, 7, 0, 0, 0, 0, 0, 0, 0, 5, 0, 0, 0, 0, 0, 0, 0,
    1, 0, 0, 0xFE, 0xFF, 9, 0,
];

/// Bits 0 and 3 of a code change places, and so do bits 1 and 2: 7, 3 and 1 become 14, 12 and 8. 5, of no marker, stays.
#[rustfmt::skip]
const RESTATED: [u8; 54] = [
    0, 2, 3, 2, 1, 0, 0, 0x80, 0x3F, 0, 0, 0, 0x3F, 4, 0,
    14, 0, 0, 0, 0, 0, 0, 0, 12, 0, 0, 0, 0, 0, 0, 0, 8, 0, 0, 0, 0, 0, 0, 0, 5, 0, 0, 0, 0, 0, 0, 0,
    1, 0, 0, 0xFE, 0xFF, 9, 0,
];

/// The result with an array of so many bytes, and the array after the call. Each byte is 0xA5 before it.
fn restated(record: &[u8], places: usize) -> (Result<usize, Refusal>, Vec<u8>) {
    let mut sheet = vec![0xA5; places];
    let result = restate(record, &mut sheet);
    (result, sheet)
}

/// 2.7: the codes of markers reversed, each rotated by 180°; the flag cleared. A record without it is unchanged.
#[test]
fn legacy_record_is_restated() {
    for record in [LEGACY, RESTATED] {
        for more in [0, 1, 7] {
            let expected = [&RESTATED[..], &vec![0xA5; more]].concat();
            assert_eq!(restated(&record, 54 + more), (Ok(54), expected));
        }
    }
    // With three rows only the flag goes.
    let mut odd_rows = LEGACY;
    odd_rows[1] = 3;
    odd_rows[2] = 2;
    let mut expected = odd_rows;
    expected[0] = 0;
    assert_eq!(restated(&odd_rows, 54), (Ok(54), expected.to_vec()));
}

/// 22 before 25 before 14. A refusal changes no byte.
#[test]
fn restating_is_refused() {
    let mut even = LEGACY;
    even[2] = 2;
    let mut equal_codes = even;
    equal_codes[23] = 8;
    let cases = [
        (&LEGACY[..53], Refusal::InvalidRecord),
        (&equal_codes, Refusal::CodesAlike),
        (&even, Refusal::EvenLegacyBoard),
        (&LEGACY, Refusal::ListTooShort),
        (&RESTATED, Refusal::ListTooShort),
    ];
    for (record, refusal) in cases {
        for places in [0, 1, 53] {
            assert_eq!(restated(record, places), (Err(refusal), vec![0xA5; places]));
        }
    }
    assert_eq!(restated(&even, 54).0, Err(Refusal::EvenLegacyBoard));
    even[0] = 0;
    assert_eq!(restated(&even, 54), (Ok(54), even.to_vec()));
}
