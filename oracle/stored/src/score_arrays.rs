//! The match with scores (document 02, 2.6): few records, each with score arrays of several lengths.

use crate::many_codes::of_largest_board;
use crate::matches::{SHORT, WITH_TABLE, faults, fits, small_legacy_boards, with_places};
use crate::script::{MOST_SCORES, Script, few};
use cases::answer::Answer;
use matches::given::{
    Given, KINDS, LEGACY_KINDS, LEGACY_SCORE_KINDS, Length, OF_COUNTS, OF_REPEATS, SCORE_KINDS,
};
use matches::scores::{Filled, Shown, count};
use matches::{match_record, match_record_with_scores, told};
use records::{Shot, read};
use std::collections::HashMap;

/// So many show each case of `matches::scores::CASES`.
const OF_EACH_CASE: usize = 2;

/// So many of those with faults of the checks 14 to 17 have each number.
const OF_EACH_NUMBER: usize = 2;

/// So many matches of the kind for counts of contributing cells.
const MATCHES: usize = 4;

/// The words of a match in which a contributing cell emits no marker, and in which the runner-up has no evidence.
const TELLING: [fn(&[u32]) -> bool; 2] = [|words| words[16] != words[17], |words| words[9] == 0];

/// No kind is looked through further than this.
const LOOKED_THROUGH: usize = 2_000;

/// Of a record that is refused before 24.
const FOR_REFUSED: usize = 40;

/// The elements after those that are needed.
const MORE: usize = 5;

/// The lengths for the records with one number, in turn. A record that is refused before 24 gets one.
const FILLED: [&[Length]; 2] = [
    &[Length::OneShort, Length::Exact],
    &[Length::Empty, Length::Longer],
];
const REFUSED: [&[Length]; 2] = [&[Length::OneShort], &[Length::Longer]];

pub fn ask(script: &mut Script, legacy: bool) {
    let mut counts: HashMap<u32, usize> = HashMap::new();
    for given in chosen(legacy) {
        let number = number_of(&given);
        let count = counts.entry(number).or_default();
        let lengths = match number {
            0 | 15..=17 => FILLED,
            _ => REFUSED,
        };
        for &length in lengths[*count % lengths.len()] {
            ask_one(script, &given, length);
        }
        *count += 1;
    }
}

pub fn ask_one(script: &mut Script, given: &Given, length: Length) {
    let needed = match needed(given) {
        0 => FOR_REFUSED,
        needed => needed.min(MOST_SCORES - MORE),
    };
    let elements = match length {
        Length::Empty => 0,
        Length::Shorter => needed / 2,
        Length::OneShort => needed - 1,
        Length::Exact => needed,
        Length::Longer => needed + MORE,
    };
    let theirs = match_record_with_scores(&given.record, given.places, elements);
    if let Some(by_rule) = &theirs.by_rule {
        assert_eq!(*by_rule, theirs.scores, "the oracle's rule is upstream's");
    }
    script.give_bytes(&given.record);
    script.ask_with_scores(given.places, length, elements, theirs);
}

fn needed(given: &Given) -> usize {
    read(&given.record).map_or(0, |read| count(&read.shot))
}

fn chosen(legacy: bool) -> Vec<Given> {
    let (kinds, further) = if legacy {
        (&LEGACY_KINDS, &LEGACY_SCORE_KINDS)
    } else {
        (&KINDS, &SCORE_KINDS)
    };
    let mut chosen = if legacy {
        small_legacy_boards().map(with_places).to_vec()
    } else {
        vec![with_places(Shot::of_document_01())]
    };
    // A record of each number, short but for the table that check 10 refuses.
    let mut is_new = few(1);
    chosen.extend(faults(kinds).all().filter(|given| {
        let number = number_of(given);
        let longest = if number == 10 { WITH_TABLE } else { SHORT };
        fits(given, longest) && is_new(number)
    }));
    let [repeats, _] = &kinds[OF_REPEATS] else {
        unreachable!("there are two")
    };
    chosen.extend(
        (repeats.first(LOOKED_THROUGH)).find(|given| fits(given, SHORT) && number_of(given) == 23),
    );
    let mut is_new = few(OF_EACH_NUMBER);
    let short = |given: &Given| fits(given, SHORT) && needed(given) <= MOST_SCORES - MORE;
    let late = further[0].first(LOOKED_THROUGH).filter(short);
    chosen.extend(late.filter(|given| is_new(number_of(given))));
    // Weights, true placements, boards of every size.
    let mut is_new = few(OF_EACH_CASE);
    for kind in [&kinds[3], &kinds[0], &further[1]] {
        let showing = kind.first(LOOKED_THROUGH).filter(short);
        chosen.extend(showing.filter(|given| {
            let cases = cases_of(given);
            cases.iter().filter(|&&case| is_new(case)).count() > 0
        }));
    }
    let placed = || {
        let counts = kinds[OF_COUNTS].first(LOOKED_THROUGH).filter(short);
        counts.filter(|given| number_of(given) == 0)
    };
    chosen.extend(placed().take(MATCHES));
    for is_it in TELLING {
        chosen.extend(placed().find(|given| is_it(&answer(given).words)));
    }
    let largest = of_largest_board(512);
    chosen.push(with_places(if legacy { largest.marked() } else { largest }));
    chosen
}

fn answer(given: &Given) -> Answer {
    told(&match_record(&given.record, given.places))
}

fn number_of(given: &Given) -> u32 {
    answer(given).number
}

/// The places of the cases that the array shows, where it is filled.
fn cases_of(given: &Given) -> Vec<u32> {
    let before: Vec<u32> = (0..needed(given) as u32 + 1).map(|i| 7 * i + 3).collect();
    let theirs = match_record_with_scores(&given.record, given.places, before.len());
    let mut shown = Shown::default();
    if let Some(read) = read(&given.record).filter(|_| !theirs.scores.is_empty()) {
        shown.add(&Filled {
            shot: &read.shot,
            before: &before,
            scores: &theirs.scores,
        });
    }
    let cases = (0..).zip(shown.0).filter(|&(_, count)| count > 0);
    cases.map(|(case, _)| case).collect()
}
