//! Whether the answers in the file would show that any two words or fields are exchanged, that a word is left out, or that a
//! kind of line is spelled otherwise; whether every number of a refusal comes up; whether cells at the same position are
//! read; whether wrong counts of contributing cells would show; whether it would show that one of many codes is not checked;
//! whether wrong score arrays would show; whether wrong converters of records would; and whether wrong programs for the least
//! weight would.

use crate::kinds::{self, Kind};
use crate::script::{Asked, Script};
use cases::answer::Answer;
use cases::codes::all_ones;
use matches::codes::{alike as alike_codes, too_large};
use matches::counts::{PAIRS, Shown, WRONG};
use matches::cuts::{self, ORDERS, Shown as ShownCuts};
use matches::given::{INVALID, Length, markers_of};
use matches::restated::{WRONG_CODES, WRONG_FIELD, WRONG_FLAG, WRONG_REVERSED, is_reversed};
use matches::scores::CASES;
use matches::weights::Uncut;
use matches::{match_shot, told};
use records::Shot;
use std::collections::{BTreeMap, BTreeSet};

/// Places of codes, the first being 0. A code that is too large is refused at each of them, if no other is: a match keeps
/// the first 512 in a list and reads the others in the record, of which there are up to 1,024.
pub const TOO_LARGE_AT: [usize; 6] = [100, 101, 511, 512, 513, 1023];

/// Places of two codes that are equal up to rotation, of a board of 512 markers on which no others are, and the answer: the
/// last marker is one of the markers, and the code past it is not.
pub const ALIKE_AT: [([usize; 2], u32); 4] = [
    ([0, 511], 22),
    ([510, 511], 22),
    ([0, 512], 0),
    ([511, 512], 0),
];

/// Words that no input distinguishes.
struct Alike {
    /// Words with one value.
    same: &'static [usize],
    /// Pairs of words that are always equal.
    equal: &'static [[usize; 2]],
}

const fn alike(same: &'static [usize], equal: &'static [[usize; 2]]) -> Alike {
    Alike { same, equal }
}

const NONE: Alike = alike(&[], &[]);

/// A best placement always has a number, since without one no marker is emitted; there is always a runner-up, since cells
/// that fit in a rotation also fit in the opposite one; and the corners are rotated as the cells are.
const MATCH: Alike = alike(&[3, 5], &[[3, 5], [0, 13]]);

/// The sides of a rectified cell are upright and level.
const RECT_CORNERS: Alike = alike(&[], &[[1, 3], [2, 4], [0, 6], [5, 7]]);
const MARKERS: Alike = alike(&[], &[[11, 13], [12, 14], [10, 16], [15, 17]]);

/// Has every word two values, and are no two words equal in all answers, but for those that are named?
fn check_told<T: Ord>(name: &str, answers: &[Vec<T>], alike: &Alike) {
    let first = answers.first();
    let words = first.unwrap_or_else(|| panic!("no answer of {name}")).len();
    let values = |word: usize| {
        let values: BTreeSet<&T> = answers.iter().map(|answer| &answer[word]).collect();
        values.len()
    };
    let same: Vec<usize> = (0..words).filter(|&word| values(word) < 2).collect();
    assert_eq!(same, alike.same, "words of {name} with one value");
    let pairs = (0..words).flat_map(|b| (0..b).map(move |a| [a, b]));
    let is_equal = |[a, b]: &[usize; 2]| answers.iter().all(|answer| answer[*a] == answer[*b]);
    let equal: Vec<[usize; 2]> = pairs.filter(is_equal).collect();
    assert_eq!(equal, alike.equal, "equal words of {name}");
}

pub fn check(script: &Script) {
    let asked = &script.asked;
    for &kind in kinds::ALL {
        let answers = asked.iter().filter(|asked| asked.kind == kind);
        let answers: Vec<&Answer> = answers.map(|asked| &asked.answer).collect();
        check_kind(kind, &answers);
    }
    let of_repeats = || asked.iter().filter(|asked| asked.has_repeat);
    // Kinds for a record have none of their own for legacy boards.
    let of_marked = asked.iter().filter(|asked| asked.is_marked);
    let matches = of_marked.filter(|asked| asked.kind == kinds::MATCH);
    let answers: Vec<&Answer> = matches.map(|asked| &asked.answer).collect();
    check_numbers("matches of legacy boards", kinds::MATCH.numbers, &answers);
    // Cells at the same position are read, and no match has them.
    for kind in [kinds::HEADER, kinds::CELL, kinds::GRID] {
        let is_read = |asked: &Asked| asked.kind == kind && asked.answer.number == 0;
        let name = kind.name;
        assert!(of_repeats().any(is_read), "{name}, duplicate positions");
    }
    let mut matches = of_repeats().filter(|asked| asked.kind == kinds::MATCH);
    assert!(matches.all(|asked| asked.answer.number != 0));
    check_text(asked);
    check_codes(asked);
    let [without_mark, marked] = &script.counts;
    check_counts("matches", without_mark);
    check_counts("matches of legacy boards", marked);
    let [without_mark, marked] = &script.cuts;
    check_cuts("matches", without_mark);
    check_cuts("matches of legacy boards", marked);
    check_weights(&script.weights);
    check_scores(script);
    check_restated(&script.restated);
}

/// Every wrong program for the least weight would show, every case comes up, and so do two checks that fail.
fn check_cuts(name: &str, shown: &ShownCuts) {
    let wrong = cuts::WRONG.iter().map(|wrong| wrong.name).zip(shown.wrong);
    let cases = cuts::CASES.iter().map(|case| case.name).zip(shown.cases);
    for (case, count) in wrong.chain(cases) {
        assert!(count > 0, "{name}, least weight: {case}");
    }
    for (least, count) in INVALID.iter().zip(shown.invalid) {
        assert!(count > 0, "{name}, least weight {least:e}");
    }
    for (order, count) in ORDERS.iter().zip(shown.orders) {
        assert!(count > 0, "{name}, least weight: checks {order:?}");
    }
}

/// Weights by themselves show the wrong ones.
fn check_weights(weights: &[Uncut]) {
    for wrong in &cuts::WRONG {
        let is_shown = |uncut: &Uncut| wrong.is_shown_by_weight(uncut);
        let shown: Option<Vec<bool>> = weights.iter().map(is_shown).collect();
        let is_shown = shown.is_none_or(|shown| shown.contains(&true));
        assert!(is_shown, "weights: {}", wrong.name);
    }
}

/// Every wrong converter would show, that of boards whose codes stay with even and with odd rows.
fn check_restated(shots: &[Shot]) {
    let by_parity = |is_odd: bool| {
        let shots = shots.iter();
        shots.filter(move |shot| (shot.rows % 2 == 1) == is_odd)
    };
    let reversed = || shots.iter().filter(|shot| is_reversed(shot));
    for wrong in &WRONG_CODES {
        let is_shown = reversed().any(|shot| wrong.is_shown_by(shot));
        assert!(is_shown, "restated: {}", wrong.name);
    }
    for is_odd in [false, true] {
        let mut legacy = by_parity(is_odd).filter(|shot| shot.is_legacy());
        assert!(legacy.any(|shot| WRONG_FLAG.is_shown_by(shot)));
        let mut with_field = by_parity(is_odd);
        assert!(with_field.any(|shot| WRONG_FIELD.is_shown_by(shot)));
        let mut staying = by_parity(is_odd).filter(|shot| !is_reversed(shot));
        assert!(staying.any(|shot| WRONG_REVERSED.is_shown_by(shot)));
    }
}

/// Every case of a filled score array comes up. Arrays are filled that are just long enough, and longer ones. 24 fails where the
/// match without scores returns 0, 15, 16 and 17; 14 is returned where both fail.
fn check_scores(script: &Script) {
    for (is_marked, shown) in [false, true].into_iter().zip(&script.scores) {
        for (case, count) in CASES.iter().zip(shown.0) {
            assert!(count > 0, "score arrays, legacy {is_marked}: {}", case.name);
        }
        let of_board = script.asked.iter();
        let of_board = of_board.filter(|asked| asked.is_marked == is_marked);
        let came_up: BTreeSet<(u32, Length, u32)> = of_board
            .filter_map(|asked| {
                let without_scores = match_shot(asked.shot.as_ref()?, usize::MAX);
                Some((
                    asked.answer.number,
                    asked.scores?,
                    told(&without_scores).number,
                ))
            })
            .collect();
        let mut required = Vec::new();
        for number in [0, 15, 16, 17] {
            required.extend([Length::Empty, Length::OneShort].map(|length| (24, length, number)));
            required.extend([Length::Exact, Length::Longer].map(|length| (number, length, number)));
        }
        for case in required {
            assert!(came_up.contains(&case), "legacy {is_marked}: {case:?}");
        }
        let mut cases = came_up.iter();
        let has_both = cases.any(|&(number, length, _)| number == 14 && !length.is_enough());
        assert!(has_both, "legacy {is_marked}: 14 and 24");
    }
}

/// Check 8 covers every code, and 22 the code of every marker and no other.
fn check_codes(asked: &[Asked]) {
    let has_match = |number: u32, is_it: &dyn Fn(&Shot) -> bool| {
        let of_number = asked.iter().filter(|asked| asked.answer.number == number);
        let mut shots = of_number.filter_map(|asked| asked.shot.as_ref());
        shots.any(is_it)
    };
    for place in TOO_LARGE_AT {
        let only_it = |shot: &Shot| too_large(shot) == [place];
        assert!(has_match(8, &only_it), "code {place} too large");
        let largest = |shot: &Shot| shot.codes.get(place) == Some(&all_ones(shot.bits));
        assert!(has_match(0, &largest), "code {place} not too large");
    }
    for (pair, number) in ALIKE_AT {
        let only_these =
            |shot: &Shot| markers_of(shot.rows, shot.cols) == 512 && alike_codes(shot) == [pair];
        assert!(
            has_match(number, &only_these),
            "codes {pair:?} equal up to rotation"
        );
    }
    let none =
        |shot: &Shot| markers_of(shot.rows, shot.cols) == 512 && alike_codes(shot).is_empty();
    assert!(has_match(0, &none), "no codes equal up to rotation");
}

/// Every wrong count would show in the best and in the runner-up, and every pair of counts comes up.
fn check_counts(name: &str, shown: &Shown) {
    for (wrong, counts) in WRONG.iter().zip(shown.wrong) {
        let [best, next] = counts.map(|count| count > 0);
        assert!(best && next, "{name}, counts that are not {}", wrong.name);
    }
    for (pair, count) in PAIRS.iter().zip(shown.pairs) {
        assert!(count > 0, "{name}, counts: {}", pair.name);
    }
}

/// Every number comes up, and no other.
fn check_numbers(name: &str, expected: &[u32], answers: &[&Answer]) {
    let numbers: BTreeSet<u32> = answers.iter().map(|answer| answer.number).collect();
    let expected: BTreeSet<u32> = expected.iter().copied().collect();
    assert_eq!(numbers, expected, "numbers of {name}");
}

/// Refusals have words of their own.
fn check_kind(kind: Kind, answers: &[&Answer]) {
    let name = kind.name;
    check_numbers(name, kind.numbers, answers);
    for &number in kind.numbers {
        let of_number = answers.iter().filter(|answer| answer.number == number);
        let words: Vec<Vec<u32>> = of_number.map(|answer| answer.words.clone()).collect();
        let alike = match (kind, number) {
            (kinds::MATCH | kinds::MATCH_WITH_SCORES, 0) => &MATCH,
            (kinds::RECT_CORNERS, _) => &RECT_CORNERS,
            _ => &NONE,
        };
        check_told(&format!("{name}, answer {number}"), &words, alike);
    }
    if kind.of_result > 0 {
        let results = answers
            .iter()
            .flat_map(|answer| answer.list.chunks(kind.of_result));
        let results: Vec<Vec<u32>> = results.map(<[u32]>::to_vec).collect();
        let alike = match kind {
            kinds::MATCH | kinds::MATCH_WITH_SCORES => &MARKERS,
            _ => &NONE,
        };
        check_told(&format!("results of {name}"), &results, alike);
    }
}

/// The lines but for refusals.
const LINES: [&str; 10] = [
    "placed",
    "best",
    "best none",
    "next",
    "next none",
    "next absent",
    "margin",
    "placements",
    "corners",
    "marker",
];

/// The fields of every kind of line.
fn check_text(asked: &[Asked]) {
    let mut lines: BTreeMap<String, Vec<Vec<&str>>> = BTreeMap::new();
    for line in asked.iter().flat_map(|asked| asked.text.lines()) {
        let words: Vec<&str> = line.split(' ').collect();
        let kind = match words[..] {
            ["refused", number, ..] => format!("refused {number}"),
            [line, .., "none", _] => format!("{line} none"),
            ["next", "absent"] => "next absent".into(),
            _ => words[0].into(),
        };
        lines.entry(kind).or_default().push(words[1..].to_vec());
    }
    // The program always has places enough, so that 14 does not come up.
    let refusals = kinds::MATCH.numbers.iter().filter(|&&n| n != 0 && n != 14);
    let mut expected: BTreeSet<String> = refusals.map(|n| format!("refused {n}")).collect();
    expected.extend(LINES.map(String::from));
    let kinds: BTreeSet<String> = lines.keys().cloned().collect();
    assert_eq!(kinds, expected, "kinds of lines");
    for (kind, lines) in &lines {
        // The number of a refusal, and the words for no evidence, by which no cell contributes, or no runner-up.
        let same: &[usize] = match kind.as_str() {
            "best none" | "next none" => &[3, 4],
            "next absent" => &[0],
            refused if refused.starts_with("refused") => &[0],
            _ => &[],
        };
        check_told(&format!("the line {kind}"), lines, &Alike { same, ..NONE });
    }
    let is_zero = |field: &str| field.chars().all(|digit| digit == '0');
    for field in 0..lines["marker"][0].len() {
        let somewhere = lines["marker"].iter().any(|fields| !is_zero(fields[field]));
        assert!(somewhere, "field {field} of a marker");
    }
}
