//! The match with scores (document 02, 2.6): its answer, every word of the output array, and every bit of the score array.

use crate::entry::Entry;
use crate::matches::{Shown as ShownRecord, each_length, each_record};
use crate::subject::{Subject, of_legacy_boards};
use cases::answer::after;
use cases::layout::SIDES;
use cases::prng::Prng;
use differential::entries::match_board_with_scores;
use matches::given::{
    Given, KINDS, Kind, LEGACY_KINDS, LEGACY_SCORE_KINDS, LENGTHS, Length, SCORE_KINDS, ScoreArray,
};
use matches::scores::{CASES, Filled, MOST_SCORES, Shown};
use matches::{WithScores, match_record, match_record_with_scores, told};
use records::{REFUSED, Shot};
use std::collections::BTreeMap;

/// The numbers that a match with scores may return, in the order of the checks; 0 is a match.
#[rustfmt::skip]
const NUMBERS: [u32; 22] = [
    0, REFUSED, 1, 2, 3, 4, 5, 6, 7, 8, 22, 9, 10, 11, 12, 23, 13, 14, 24, 15, 16, 17,
];

/// Of these the array is filled.
const FILLED: [u32; 4] = [0, 15, 16, 17];

pub fn compare() -> Vec<Subject> {
    let current = compare_kinds(&KINDS, &SCORE_KINDS, 61);
    let legacy = compare_kinds(&LEGACY_KINDS, &LEGACY_SCORE_KINDS, 62);
    [current, of_legacy_boards(legacy)].concat()
}

/// The kinds of the match without scores, each record with an array of some length, and further ones, with every length.
fn compare_kinds(of_matches: &[Kind], further: &[Kind], seed: u64) -> Vec<Subject> {
    let mut run = Run::new(seed);
    let records = each_record(of_matches, |shown| {
        let array = ScoreArray::any(&mut run.prng, &shown.2.record);
        run.compare(shown, &array);
    });
    let name = "the kinds of the match without scores";
    let mut subjects = vec![Subject::of_cases(name, [("records", records)])];
    subjects.extend(each_length(further, |shown, length| {
        let array = ScoreArray::of_length(&mut run.prng, &shown.2.record, length);
        run.compare(shown, &array);
    }));
    subjects.extend(run.subjects());
    subjects
}

struct Run {
    prng: Prng,
    entry: Entry,
    arrays: Subject,
    rule: Subject,
    came_up: CameUp,
}

impl Run {
    fn new(seed: u64) -> Self {
        Self {
            prng: Prng::new(seed),
            entry: Entry::new("match with scores", &NUMBERS),
            arrays: Subject::new("match with scores, whole score array"),
            rule: Subject::new("all scores by the oracle's rule against upstream's matrix"),
            came_up: CameUp::default(),
        }
    }

    fn compare(&mut self, shown: &ShownRecord, array: &ScoreArray) {
        let ShownRecord(_, _, given) = shown;
        let before = &array.words;
        let theirs = match_record_with_scores(&given.record, given.places, before.len());
        let asked = format_args!("{} elements, {shown}", before.len());
        let mut ours = before.clone();
        let call = |values: &mut [u32], lent: &mut [u32]| {
            match_board_with_scores(&given.record, &mut ours, lent, values)
        };
        let answer = theirs.answer.clone();
        self.entry.compare_call(given.places, call, answer, asked);
        let expected = after(before.clone(), &theirs.scores);
        self.arrays.check_words(&ours, &expected, asked);
        if let Some(by_rule) = &theirs.by_rule {
            self.rule.check_words(by_rule, &theirs.scores, asked);
        }
        self.came_up.add(given, array, &theirs);
    }

    fn subjects(self) -> Vec<Subject> {
        let mut subjects = self.entry.subjects();
        subjects.extend([self.arrays, self.rule]);
        subjects.extend(self.came_up.subjects());
        subjects
    }
}

/// What must come up.
#[derive(Default)]
struct CameUp {
    /// By the number, and by the length's place in `LENGTHS`.
    lengths: BTreeMap<u32, [u64; LENGTHS.len()]>,
    /// By the places of `ORDERS`.
    orders: [u64; ORDERS.len()],
    shown: Shown,
    /// Filled arrays by the size of the board.
    sizes: BTreeMap<[u8; 2], u64>,
    longest: u64,
    /// Filled arrays with a NaN before the call: in place of a score, and after the scores.
    nans: [u64; 2],
    /// Scores of upstream's matrix, and those by a table that it cannot take.
    scores: [u64; 2],
}

const ORDERS: [&str; 5] = [
    "14 and 24 fail",
    "24 and 15 fail",
    "24 and 16 fail",
    "24 and 17 fail",
    "24 alone fails",
];

impl CameUp {
    fn add(&mut self, given: &Given, array: &ScoreArray, theirs: &WithScores) {
        let number = theirs.answer.number;
        let place = LENGTHS.iter().position(|&length| length == array.length);
        self.lengths.entry(number).or_default()[place.expect("one of them")] += 1;
        match number {
            14 if !array.length.is_enough() => self.orders[0] += 1,
            24 => {
                let without_scores = match_record(&given.record, given.places);
                match told(&without_scores).number {
                    0 => self.orders[4] += 1,
                    later => self.orders[later as usize - 14] += 1,
                }
            }
            _ => {}
        }
        if FILLED.contains(&number) {
            let read = records::read(&given.record).expect("it is not refused by 21");
            self.add_filled(&read.shot, array, theirs);
        }
    }

    fn add_filled(&mut self, shot: &Shot, array: &ScoreArray, theirs: &WithScores) {
        let scores = &theirs.scores;
        self.shown.add(&Filled {
            shot,
            before: &array.words,
            scores,
        });
        *self.sizes.entry([shot.rows, shot.cols]).or_default() += 1;
        self.longest += u64::from(scores.len() == MOST_SCORES);
        let (in_place, after) = array.words.split_at(scores.len());
        for (count, words) in self.nans.iter_mut().zip([in_place, after]) {
            let has_nan = words.iter().any(|&bits| f32::from_bits(bits).is_nan());
            *count += u64::from(has_nan);
        }
        self.scores[usize::from(theirs.by_rule.is_none())] += scores.len() as u64;
    }

    /// Every number with every length that it can have.
    fn lengths(&self) -> Vec<(String, u64)> {
        let mut cases = Vec::new();
        for number in NUMBERS {
            let counts = self.lengths.get(&number).copied().unwrap_or_default();
            for (length, count) in LENGTHS.into_iter().zip(counts) {
                if is_possible(number, length) {
                    cases.push((format!("{number} {length:?}"), count));
                }
            }
        }
        cases
    }

    fn subjects(self) -> [Subject; 5] {
        let shown = CASES.iter().zip(self.shown.0);
        let shown = shown.map(|(case, count)| (case.name, count as u64));
        let shown = shown.chain([
            ("NaN in place of a score", self.nans[0]),
            ("NaN after the scores", self.nans[1]),
            ("524,288 scores", self.longest),
        ]);
        let sizes = SIDES.map(|rows| {
            let of_cols = |cols| self.sizes.get(&[rows, cols]).copied().unwrap_or(0);
            (
                format!("{rows} rows"),
                SIDES.map(of_cols).min().unwrap_or(0),
            )
        });
        let scores = ["by upstream", "by the oracle's rule alone"];
        [
            Subject::of_cases("scores", scores.into_iter().zip(self.scores)),
            Subject::of_cases("lengths of the score array by number", self.lengths()),
            Subject::of_cases(
                "24 next to other checks",
                ORDERS.into_iter().zip(self.orders),
            ),
            Subject::of_cases("filled score arrays", shown),
            Subject::of_cases(
                "filled score arrays by rows, the least of all numbers of columns",
                sizes,
            ),
        ]
    }
}

fn is_possible(number: u32, length: Length) -> bool {
    match number {
        24 => !length.is_enough(),
        filled if FILLED.contains(&filled) => length.is_enough(),
        _ => true,
    }
}
