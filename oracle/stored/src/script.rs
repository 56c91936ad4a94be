//! The rows of the file in their order: those that build up the two lists, and those with an answer.

use crate::kinds::{Kind, MATCH, MATCH_WITH_SCORES, RESTATED};
use cases::answer::{Answer, after};
use matches::WithScores;
use matches::counts::Shown;
use matches::cuts::Shown as ShownCuts;
use matches::given::Length;
use matches::restated::restate;
use matches::scores::{Filled, Shown as ShownScores};
use matches::weights::Uncut;
use records::{Shot, read, settings};
use std::collections::{HashMap, HashSet};
use std::fmt::Write;

/// What the program has room for.
pub const MOST_PLACES: usize = 147_500;
pub const MOST_BYTES: usize = 65_536;
pub const MOST_PLACES_WITH_SCORES: usize = 4_704;
pub const MOST_SCORES: usize = 8_200;
const MOST_RESTATED: usize = 4_096;
const MOST_WORDS: usize = 8_600;
const WORDS_OF_A_ROW: usize = 32;

/// Of a match.
pub const MOST_CELLS: usize = 256;

/// So many equal bytes or words have a row of their own.
const LONG_RUN_OF_BYTES: usize = 24;
const LONG_RUN_OF_WORDS: usize = 10;

/// A row with an answer, and the answer.
pub struct Asked {
    pub kind: Kind,
    pub answer: Answer,
    /// Have the bytes, if they are a record, the legacy flag?
    pub is_marked: bool,
    /// Are two cells at the same position, of no more than a match may have, if the bytes are a record?
    pub has_repeat: bool,
    /// What is matched, if the row is a match and the bytes are a record.
    pub shot: Option<Shot>,
    /// How long the score array is, if there is one.
    pub scores: Option<Length>,
    /// That of place, if the row has one.
    pub text: String,
}

#[derive(Default)]
pub struct Script {
    /// The lines of the file.
    pub lines: String,
    pub asked: Vec<Asked>,
    /// What the matches show of the counts of contributing cells, without the legacy flag and with it.
    pub counts: [Shown; 2],
    /// The same of the least weight.
    pub cuts: [ShownCuts; 2],
    /// The same of the score arrays.
    pub scores: [ShownScores; 2],
    /// What the rows of weights are made of.
    pub weights: Vec<Uncut>,
    /// The shots that are restated.
    pub restated: Vec<Shot>,
    bytes: Vec<u8>,
    words: Vec<u64>,
}

impl Script {
    fn row(&mut self, words: &[u64]) {
        assert!((1..=WORDS_OF_A_ROW).contains(&words.len()));
        let words: Vec<String> = words.iter().map(|word| format!("{word:X}")).collect();
        writeln!(self.lines, "{}", words.join(" ")).expect("a string takes everything");
    }

    /// Makes these the bytes of the row that follows. Only what is new has rows, if the bytes before are a part of them.
    pub fn give_bytes(&mut self, bytes: &[u8]) {
        if !bytes.starts_with(&self.bytes) {
            self.clear();
        }
        self.add_bytes(&bytes[self.bytes.len()..]);
    }

    /// The same of the words.
    pub fn give_words(&mut self, words: &[u64]) {
        if !words.starts_with(&self.words) {
            self.clear();
        }
        self.add_words(&words[self.words.len()..]);
    }

    fn clear(&mut self) {
        self.bytes.clear();
        self.words.clear();
        self.row(&[0]);
    }

    fn add_bytes(&mut self, bytes: &[u8]) {
        self.bytes.extend(bytes);
        assert!(self.bytes.len() <= MOST_BYTES);
        for (is_run, part) in by_long_runs(bytes, LONG_RUN_OF_BYTES) {
            if is_run {
                self.row(&[2, part.len() as u64, part[0].into()]);
                continue;
            }
            for bytes in part.chunks(8 * (WORDS_OF_A_ROW - 2)) {
                let words = bytes.chunks(8).map(|eight| {
                    let lowest_first = eight.iter().rev();
                    lowest_first.fold(0, |word, &byte| word << 8 | u64::from(byte))
                });
                let row = [1, bytes.len() as u64].into_iter().chain(words);
                self.row(&row.collect::<Vec<_>>());
            }
        }
    }

    fn add_words(&mut self, words: &[u64]) {
        self.words.extend(words);
        assert!(self.words.len() <= MOST_WORDS);
        for (is_run, part) in by_long_runs(words, LONG_RUN_OF_WORDS) {
            if is_run {
                self.row(&[4, part.len() as u64, part[0]]);
                continue;
            }
            for words in part.chunks(WORDS_OF_A_ROW - 1) {
                self.row(&[&[3], words].concat());
            }
        }
    }

    /// A row without a list.
    pub fn ask(&mut self, kind: Kind, arguments: &[u64], answer: Answer) {
        self.ask_with_digest(kind, arguments, answer, 0);
    }

    /// A row with an output array of so many places.
    pub fn ask_with_list(&mut self, kind: Kind, arguments: &[u64], answer: Answer, places: usize) {
        assert!(places <= MOST_PLACES);
        let list = after(before(places), &answer.list);
        self.ask_with_digest(kind, arguments, answer, digest(list));
    }

    /// The match with scores, with arrays of so many words and elements.
    pub fn ask_with_scores(
        &mut self,
        places: usize,
        length: Length,
        scores: usize,
        theirs: WithScores,
    ) {
        assert!(places <= MOST_PLACES_WITH_SCORES && scores <= MOST_SCORES);
        let list = after(before(places), &theirs.answer.list);
        let both = [list, after(before(scores), &theirs.scores)].concat();
        let arguments = [places, scores].map(|length| length as u64);
        self.ask_with_digest(MATCH_WITH_SCORES, &arguments, theirs.answer, digest(both));
        let asked = self.asked.last_mut().expect("it was asked");
        asked.scores = Some(length);
        if let Some(shot) = &asked.shot
            && !theirs.scores.is_empty()
        {
            self.scores[usize::from(asked.is_marked)].add(&Filled {
                shot,
                before: &before(scores),
                scores: &theirs.scores,
            });
        }
    }

    /// The bytes restated, with an output array of so many bytes.
    pub fn ask_restated(&mut self, places: usize) {
        assert!(places <= MOST_RESTATED);
        let mut sheet: Vec<u8> = before(places).into_iter().map(|word| word as u8).collect();
        let answer = match restate(&self.bytes, places) {
            Ok(new) => {
                sheet[..new.len()].copy_from_slice(&new);
                let read = read(&self.bytes);
                self.restated.extend(read.map(|read| read.shot));
                Answer::of_words([new.len() as u32])
            }
            Err(refused) => refused,
        };
        self.ask_with_bytes(RESTATED, &[places as u64], answer, &sheet);
    }

    /// A row about bytes, which are those that the answer names or those of the output array.
    pub fn ask_with_bytes(&mut self, kind: Kind, arguments: &[u64], answer: Answer, bytes: &[u8]) {
        self.ask_with_digest(kind, arguments, answer, digest(bytes.iter().copied()));
    }

    fn ask_with_digest(&mut self, kind: Kind, arguments: &[u64], answer: Answer, digest: u64) {
        assert_eq!(arguments.len(), kind.arguments, "{}", kind.name);
        assert!(answer.words.len() <= kind.words, "{}", kind.name);
        let mut row = vec![kind.number];
        row.extend(arguments);
        row.push(answer.number.into());
        let words = after(before(kind.words), &answer.words);
        row.extend(words.into_iter().map(u64::from));
        row.push(digest);
        self.row(&row);
        let is_match = kind == MATCH || kind == MATCH_WITH_SCORES;
        let read = is_match.then(|| read(&self.bytes)).flatten();
        let shot = read.map(|read| read.shot);
        if let Some(shot) = &shot
            && kind == MATCH
        {
            let board = usize::from(is_marked(&self.bytes));
            self.counts[board].add(shot, &answer);
            self.cuts[board].add(shot, arguments[0] as usize, &answer);
        }
        self.asked.push(Asked {
            kind,
            answer,
            is_marked: is_marked(&self.bytes),
            has_repeat: has_repeat(&self.bytes),
            shot,
            scores: None,
            text: String::new(),
        });
    }
}

pub fn is_marked(record: &[u8]) -> bool {
    has_flag(record, settings::LEGACY)
}

pub fn has_least_weight(record: &[u8]) -> bool {
    has_flag(record, settings::LEAST_WEIGHT)
}

fn has_flag(record: &[u8], flag: u8) -> bool {
    let map = record.first();
    map.is_some_and(|map| map & flag != 0)
}

fn has_repeat(record: &[u8]) -> bool {
    let cells = read(record).map_or(Vec::new(), |read| read.shot.cells);
    let points: HashSet<[i16; 2]> = cells.iter().map(|cell| [cell.u, cell.v]).collect();
    points.len() < cells.len() && cells.len() <= MOST_CELLS
}

/// What every output array has before the call.
fn before(places: usize) -> Vec<u32> {
    (0..places as u32).map(|i| 7 * i + 3).collect()
}

const FACTOR: u64 = 65_599;
/// The largest prime below 2^32.
const MODULUS: u64 = 4_294_967_291;

/// The digest of numbers below 2^32.
pub fn digest(numbers: impl IntoIterator<Item = impl Into<u64>>) -> u64 {
    numbers.into_iter().fold(0, |digest, number| {
        (digest * FACTOR + number.into()) % MODULUS
    })
}

/// Long runs of one number, and what is between them; of each, whether it is a run.
fn by_long_runs<T: Copy + PartialEq>(list: &[T], long: usize) -> Vec<(bool, Vec<T>)> {
    let mut parts: Vec<(bool, Vec<T>)> = Vec::new();
    for run in list.chunk_by(|a, b| a == b) {
        let is_run = run.len() >= long;
        match parts.last_mut() {
            Some((false, others)) if !is_run => others.extend(run),
            _ => parts.push((is_run, run.to_vec())),
        }
    }
    parts
}

/// The 32 bits of a signed number.
pub fn signed(number: impl Into<i32>) -> u64 {
    number.into().cast_unsigned().into()
}

/// The 32 bits of a float.
pub fn float(number: f32) -> u64 {
    number.to_bits().into()
}

/// No more inputs of a list have the same number for an answer, so that all numbers come up and few rows do.
pub fn few(most: usize) -> impl FnMut(u32) -> bool {
    let mut counts: HashMap<u32, usize> = HashMap::new();
    move |number| {
        let count = counts.entry(number).or_default();
        *count += 1;
        *count <= most
    }
}
