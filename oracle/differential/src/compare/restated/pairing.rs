//! Legacy boards with even rows and odd columns: this library's match of the record against upstream's match of the restated
//! one, by the pairing of document 02, 2.7.

use crate::matches::Shown as ShownRecord;
use crate::subject::Subject;
use cases::answer::{Answer, after, before};
use charuco::words;
use matches::given::{LEGACY_KINDS, PAIRED_KINDS};
use matches::restated::restate;
use matches::{
    ANSWER_WORDS, Compared, MOST_PLACES, Ties, by_paired_rust_and_model, match_record, told,
};

/// The words of an answer.
const BEST_EVIDENCE: usize = 4;
const NEXT_ALIGNMENT: usize = 6;
const NEXT_EVIDENCE: usize = 10;
const MARGIN: usize = 11;
const PLACEMENTS: usize = 12;
const BEST_CELLS: usize = 17;
const NEXT_CELLS: usize = 18;

pub fn compare() -> Vec<Subject> {
    let mut run = Pairing::default();
    for kind in LEGACY_KINDS.iter().chain(&PAIRED_KINDS) {
        for (place, given) in kind.all().enumerate() {
            let shown = ShownRecord(kind, place, &given);
            let read = records::read(&given.record);
            let both = read.and_then(|read| by_paired_rust_and_model(&read.shot));
            if let Some((both, is_upstream)) = both {
                run.check(both, is_upstream, &shown);
            }
        }
    }
    run.subjects()
}

struct Pairing {
    placements: Subject,
    chosen: Subject,
    same: Subject,
    /// Where both choose the same best.
    answers: Subject,
    margins: Subject,
    restated: Subject,
    count: u64,
    /// Matches without ties, by upstream, and by the rules in its place.
    whole: [u64; 2],
    tied: [u64; TIED.len()],
}

/// What ties may change.
const TIED: [&str; 7] = [
    "the best is tied",
    "the runner-up alone is tied",
    "another best",
    "another runner-up, same best",
    "17 on the legacy record alone",
    "17 on the restated record alone",
    "margins in ties",
];

impl Default for Pairing {
    fn default() -> Self {
        let subject = |of: &str| Subject::new(format!("restated, by upstream: {of}"));
        Self {
            placements: subject("evidence and contributing cells of every placement"),
            chosen: subject("best, runner-up, margin"),
            same: subject("same best and runner-up without ties"),
            answers: subject("whole answer, same best"),
            margins: subject("number, evidence, margin and placements with ties"),
            restated: Subject::new("match of the restated record"),
            count: 0,
            whole: [0; 2],
            tied: [0; TIED.len()],
        }
    }
}

impl Pairing {
    fn check(&mut self, [rust, model]: [Compared; 2], is_upstream: bool, shown: &ShownRecord) {
        let ShownRecord(_, _, given) = shown;
        let asked = format_args!("{shown}");
        self.count += rust.placements.len() as u64;
        self.check_restated(&given.record, shown);
        let ours = ours(&given.record);
        let ties = Ties::of(&rust);
        if ties.none() {
            let is_same = [rust.answer.is_some(), rust.is_same_runner_up];
            self.same.check([true; 2], is_same, asked);
            self.whole[usize::from(!is_upstream)] += u64::from(ours.number == 0);
        } else {
            self.count_tied(ties, &rust, ours.number);
            self.check_margin(&ours, &rust, shown);
        }
        if let Some(theirs) = &rust.answer {
            let mut both = [ours, whole(theirs)];
            if !rust.is_same_runner_up {
                both.iter_mut().for_each(with_any_runner_up);
            }
            let [ours, theirs] = both;
            self.answers.check(ours, theirs, asked);
        }
        self.chosen.check(model.chosen, rust.chosen, asked);
        self.placements
            .check(model.placements, rust.placements, asked);
    }

    /// The restated record is one that upstream places itself.
    fn check_restated(&mut self, record: &[u8], shown: &ShownRecord) {
        let new = restate(record, record.len()).expect("a board that is accepted");
        let theirs = told(&match_record(&new, MOST_PLACES));
        self.restated
            .check(ours(&new), whole(&theirs), format_args!("{shown}"));
    }

    fn count_tied(&mut self, ties: Ties, rust: &Compared, ours: u32) {
        let is_same_best = rust.answer.is_some();
        let came_up = [
            ties.best,
            !ties.best && ties.runner_up,
            !is_same_best,
            is_same_best && !rust.is_same_runner_up,
            ours == 17 && rust.number != 17,
            ours != 17 && rust.number == 17,
            ours == 0 || ours == 16,
        ];
        for (count, came_up) in self.tied.iter_mut().zip(came_up) {
            *count += u64::from(came_up);
        }
    }

    /// Of a match, and of a margin that is too small. The best of one side may have no marker, and 17 returns no word.
    fn check_margin(&mut self, ours: &Answer, rust: &Compared, shown: &ShownRecord) {
        let Some(chosen) = rust.chosen else { return };
        let asked = format_args!("{shown}");
        let is_17_alone = [[0, 17], [17, 0]].contains(&[ours.number, rust.number]);
        let number = if is_17_alone {
            ours.number
        } else {
            rust.number
        };
        let next = chosen.runner_up.flatten();
        let [ours_words, words] = match ours.number {
            0 => {
                let places = [BEST_EVIDENCE, NEXT_EVIDENCE, MARGIN, PLACEMENTS];
                let theirs = [
                    chosen.best.unwrap_or(0),
                    next.unwrap_or(0),
                    chosen.margin,
                    chosen.placements as u32,
                ];
                [
                    places.map(|place| ours.words[place]).to_vec(),
                    theirs.to_vec(),
                ]
            }
            16 => [vec![ours.words[0]], vec![chosen.margin]],
            _ => [vec![], vec![]],
        };
        self.margins
            .check((ours.number, ours_words), (number, words), asked);
    }

    fn subjects(self) -> Vec<Subject> {
        let whole = ["by upstream", "by the oracle's rules alone"];
        let counts = [("placements", self.count)];
        vec![
            Subject::of_cases("restated, by upstream: placements", counts),
            self.placements,
            self.chosen,
            self.same,
            Subject::of_cases(
                "restated, by upstream: matches without ties",
                whole.into_iter().zip(self.whole),
            ),
            self.answers,
            self.margins,
            Subject::of_cases(
                "restated, by upstream: ties",
                TIED.into_iter().zip(self.tied),
            ),
            self.restated,
        ]
    }
}

/// This library's answer, with the whole arrays. They are long enough, since both sides make check 14 in the same way.
fn ours(record: &[u8]) -> Answer {
    let [mut values, mut list] = [ANSWER_WORDS, MOST_PLACES].map(before);
    Answer {
        number: words::match_board(record, &mut list, &mut values),
        words: values,
        list,
    }
}

/// The same of an answer that is expected.
fn whole(answer: &Answer) -> Answer {
    Answer {
        number: answer.number,
        words: after(before(ANSWER_WORDS), &answer.words),
        list: after(before(MOST_PLACES), &answer.list),
    }
}

/// As if every runner-up of this evidence were the same.
fn with_any_runner_up(answer: &mut Answer) {
    if answer.number == 0 {
        answer.words.copy_within(..3, NEXT_ALIGNMENT);
        answer.words[NEXT_CELLS] = answer.words[BEST_CELLS];
    }
}
