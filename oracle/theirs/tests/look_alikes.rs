//! Check 22 (document 02, 2.2): by hand, and the quick rule against the sentence.

use cases::answer::Answer;
use cases::boards::{BoardArguments, board, random_pair};
use cases::codes::{SIDES, all_ones, listed_codes, most_different, random_code};
use cases::corner_entry::CornerInput;
use cases::link_entry::example;
use cases::prng::Prng;
use theirs::{links_by_rules, map_charuco_corners, two_alike, two_alike_by_pairs};

/// P4 of document 01: code 1 of side 2 in its rotations is 1, 2, 8 and 4.
#[test]
fn by_hand() {
    for rule in [two_alike, two_alike_by_pairs] {
        for turned in [1, 2, 8, 4] {
            assert!(rule(&[1, turned], 2));
            assert!(rule(&[turned, 15, 1], 2));
        }
        assert!(!rule(&[1, 15], 2), "the example of document 01");
        // Each looks the same when it is rotated, and none like another.
        assert!(!rule(&[0, 15], 2));
        assert!(!rule(&[0, 16, 511], 3));
        assert!(rule(&[16, 0, 16], 3));
        // A mirror image is not a rotation.
        assert!(!rule(&[0b000_001_011, 0b000_100_011], 3));
        assert!(!rule(&[], 4) && !rule(&[7], 4));
    }
}

/// The quick rule gives what the sentence gives, on lists with a pair that is equal up to rotation and without one.
#[test]
fn the_quick_rule() {
    let mut prng = Prng::new(41);
    let mut of_each = [0; 2];
    for _ in 0..4_000 {
        for side in SIDES {
            let most = prng.pick(&[3, 12, 30]);
            let count = 2 + prng.place(most).min(most_different(side) - 2);
            let mut codes = match prng.below(3) {
                0 => listed_codes(side, count),
                _ => prng.many(count, |prng| random_code(prng, side)),
            };
            if prng.one_in(2) {
                random_pair(&mut prng, count, count).plant(&mut codes, side);
            }
            let [quick, by_pairs] =
                [two_alike, two_alike_by_pairs].map(|rule| rule(&codes, side.into()));
            assert_eq!(quick, by_pairs, "{codes:X?} of side {side}");
            of_each[usize::from(quick)] += 1;
        }
    }
    assert!(of_each.iter().all(|&count| count > 5_000), "{of_each:?}");
}

#[test]
fn listed_codes_are_different() {
    for side in SIDES {
        let count = most_different(side).min(512);
        assert!(!two_alike_by_pairs(&listed_codes(side, count), side.into()));
    }
}

/// Of 4 rows and 5 columns: ten markers. Code k of the list is k up to 7, and code 8 is 9.
fn with(place: usize, value: u64) -> BoardArguments {
    BoardArguments {
        place,
        value,
        code_count: 12,
        ..board([4, 5], 1.0)
    }
}

fn asked(board: BoardArguments) -> [Answer; 2] {
    let mut links = example(true);
    links.board = board;
    [
        map_charuco_corners(&CornerInput::without_corners(board)),
        links_by_rules(&links),
    ]
}

/// Code 1 of side 4 in its rotations is 1, 8, 2^15 and 2^12.
#[test]
fn boards_in_both_entries() {
    for mark in [false, true] {
        let numbers = |place, value| asked(with(place, value).with_mark(mark)).map(|a| a.number);
        for turned in [1, 1 << 3, 1 << 15, 1 << 12] {
            for place in [0, 2, 9] {
                assert_eq!(numbers(place, turned), [22; 2]);
            }
            assert_eq!(numbers(1, turned), [0; 2], "its own turn");
            assert_eq!(numbers(10, turned), [0; 2], "past the last marker");
        }
        assert_eq!(numbers(9, 0), [22; 2], "equal to one that its turns keep");
        assert_eq!(numbers(9, all_ones(4)), [0; 2], "one that its turns keep");
    }
}

#[test]
fn questions_in_their_order() {
    let refused = |number| [Answer::refused(number), Answer::refused(number)];
    let alike = with(9, 1);
    assert_eq!(asked(alike), refused(22));
    // A rotation leaves the bit behind by which the code is too large, so that it is equal up to rotation to code 1.
    let too_large = 1 << 16 | 1 << 3;
    assert!(two_alike_by_pairs(with(0, too_large).codes(), 4));
    assert_eq!(asked(with(0, too_large)), refused(8));
    assert_eq!(asked(with(11, 1 << 16)), refused(8));
    let mut corners = CornerInput::without_corners(alike);
    corners.turn = 4;
    corners.lists.places = 0;
    assert_eq!(map_charuco_corners(&corners), Answer::refused(22));
    let mut links = example(true);
    links.board = alike;
    links.places = 0;
    links.words.resize(2 * 4097, 0);
    assert_eq!(links_by_rules(&links), Answer::refused(22));
}
