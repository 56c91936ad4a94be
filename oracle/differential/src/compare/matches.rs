//! The match: its answer, every word of the output array, and what the program `place` prints.

mod counts;
mod cuts;
mod program;
mod unknown_to_rust;

use crate::entry::{Both, Entry};
use crate::subject::{Bytes, Subject, of_legacy_boards};
use matches::counts::Shown as ShownCounts;
use matches::cuts::Shown as ShownCuts;
use matches::given::{Given, KINDS, Kind, LEGACY_KINDS, LENGTHS, Length};
use matches::weights::Uncut;
use matches::{Compared, NUMBERS, by_rust_and_model, by_turned_rust_and_model, told};
use std::fmt::{self, Display, Formatter};
use unknown_to_rust::UnknownToRust;

pub use program::compare as compare_program;

pub fn compare() -> Vec<Subject> {
    let mut turned = Turned::default();
    let subjects = compare_kinds(&KINDS, &mut turned);
    let of_legacy = compare_kinds(&LEGACY_KINDS, &mut turned);
    let turned = turned.subjects().to_vec();
    [subjects, of_legacy_boards([of_legacy, turned].concat())].concat()
}

fn compare_kinds(kinds: &[Kind], turned: &mut Turned) -> Vec<Subject> {
    let mut entry = Entry::new("match", &NUMBERS);
    let mut rules = Subject::new("the oracle's rules against upstream");
    let mut unknown = UnknownToRust::all();
    let mut by_rust = [0u64; 2];
    let mut counts = ShownCounts::default();
    let mut cuts = ShownCuts::default();
    let mut subjects = Vec::new();
    for kind in kinds {
        let mut of_kind = 0u64;
        for (place, given) in kind.all().enumerate() {
            let asked = Shown(kind, place, &given);
            let Both { ours, theirs } = entry.compare(&given, &asked);
            of_kind += 1;
            // The oracle's rules answer for tables that upstream cannot take; where it can, they are compared with it.
            let Some(read) = records::read(&given.record) else {
                continue;
            };
            counts.add(&read.shot, &theirs);
            cuts.add(&read.shot, given.places, &theirs);
            if let Some(both) = by_rust_and_model(&read.shot) {
                let [rust, model] = both.map(|matched| told(&matched));
                // Check 14, of the output array's length, may still fail.
                let is_placed = rust.number == 0 && theirs.number == 0;
                let has_cut = Uncut::all(&read.shot).iter().any(Uncut::is_lost);
                for (count, is_one) in by_rust.iter_mut().zip([true, has_cut]) {
                    *count += u64::from(is_placed && is_one);
                }
                rules.check(model, rust, format_args!("{asked}"));
            }
            if let Some(both) = by_turned_rust_and_model(&read.shot) {
                turned.check(both, &asked);
            }
            let mut unknown = unknown.iter_mut();
            if let Some(unknown) = unknown.find(|unknown| unknown.number == ours.number) {
                unknown.check(&read.shot, &asked);
            }
        }
        let of_kind = [("records", of_kind)];
        subjects.push(Subject::of_cases(format!("kind: {}", kind.title), of_kind));
    }
    subjects.extend(entry.subjects());
    subjects.push(rules);
    let by_rust = ["placed", "placed with a weight cut"]
        .into_iter()
        .zip(by_rust);
    subjects.push(Subject::of_cases("answers of upstream itself", by_rust));
    subjects.extend(counts::subjects(&counts));
    subjects.extend(cuts::subjects(&cuts));
    subjects.extend(unknown.into_iter().flat_map(UnknownToRust::subjects));
    subjects
}

/// Legacy boards, which upstream knows only rotated by 90°.
struct Turned {
    /// The evidence of every placement, as its bit pattern, and its count of contributing cells; and the placements one to one.
    placements: Subject,
    /// Count of placements, evidence of the best and of the runner-up, margin.
    chosen: Subject,
    /// The whole answer, where both choose the same best.
    answers: Subject,
    count: u64,
    /// Matches with the same best and runner-up, which are compared as a whole.
    whole: u64,
}

impl Default for Turned {
    fn default() -> Self {
        let subject = |of: &str| Subject::new(format!("upstream on the rotated board: {of}"));
        Self {
            placements: subject("evidence and contributing cells of every placement"),
            chosen: subject("best, runner-up, margin"),
            answers: subject("whole answer, same best"),
            count: 0,
            whole: 0,
        }
    }
}

impl Turned {
    /// The oracle's rules are compared with upstream, as elsewhere.
    fn check(&mut self, [rust, model]: [Compared; 2], asked: &Shown) {
        let asked = format_args!("{asked}");
        self.count += rust.placements.len() as u64;
        self.placements
            .check(model.placements, rust.placements, asked);
        self.chosen.check(model.chosen, rust.chosen, asked);
        if let Some(answer) = &rust.answer {
            self.whole += u64::from(answer.number == 0 && rust.is_same_runner_up);
            self.answers.check(model.answer, rust.answer, asked);
        }
    }

    fn subjects(self) -> [Subject; 4] {
        let up = Subject::of_cases(
            "upstream on the rotated board: counts",
            [
                ("placements", self.count),
                ("matches with the same best and runner-up", self.whole),
            ],
        );
        [self.placements, self.chosen, self.answers, up]
    }
}

/// Calls `ask` for each record of the kinds, and returns how many there are.
pub fn each_record(kinds: &[Kind], mut ask: impl FnMut(&Shown)) -> u64 {
    let mut records = 0;
    for kind in kinds {
        for (place, given) in kind.all().enumerate() {
            ask(&Shown(kind, place, &given));
            records += 1;
        }
    }
    records
}

/// The same with each length of a further array; for each kind a subject with the number of its records.
pub fn each_length(kinds: &[Kind], mut ask: impl FnMut(&Shown, Length)) -> Vec<Subject> {
    let of_kind = |kind: &Kind| {
        let records = each_record(std::slice::from_ref(kind), |shown| {
            for length in LENGTHS {
                ask(shown, length);
            }
        });
        Subject::of_cases(format!("kind: {}", kind.title), [("records", records)])
    };
    kinds.iter().map(of_kind).collect()
}

/// The kind of a record and its place in it, by which it can be made again, and its first bytes.
pub struct Shown<'a>(pub &'a Kind, pub usize, pub &'a Given);

impl Display for Shown<'_> {
    fn fmt(&self, f: &mut Formatter) -> fmt::Result {
        let Self(kind, place, Given { record, places }) = self;
        let of = if kind.legacy { " of legacy boards" } else { "" };
        write!(f, "{}{of}, record {place}, {places} places, ", kind.title)?;
        write!(f, "{}", Bytes(record))
    }
}
