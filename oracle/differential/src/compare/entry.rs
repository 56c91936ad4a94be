//! What is counted for an entry point: answers by their numbers, and every word of the output array.

use crate::subject::Subject;
use cases::answer::{Answer, after, before};
use differential::entries::Input;
use std::fmt::Display;

/// More words than any answer has, to check that no other word is written.
const VALUES: usize = 20;

/// One subject for each expected number, so that the run shows how often each came up, and one for the output array.
pub struct Entry {
    numbers: &'static [u32],
    answers: Vec<Subject>,
    lent: Subject,
}

/// What both sides answer. Of ours, `values` and the output array are whole.
pub struct Both {
    pub ours: Answer,
    pub theirs: Answer,
}

impl Entry {
    /// The numbers are 0 and those of the checks, in their order.
    pub fn new(name: &'static str, numbers: &'static [u32]) -> Self {
        let subject = |&number| Subject::of_number(format!("{name}, number and values"), number);
        Self {
            numbers,
            answers: numbers.iter().map(subject).collect(),
            lent: Subject::new(format!("{name}, whole output array")),
        }
    }

    pub fn compare(&mut self, input: &impl Input, asked: impl Display) -> Both {
        self.compare_call(input.places(), input.ours(), input.theirs(), asked)
    }

    /// A call with an output array of so many words, and the answer that is expected.
    pub fn compare_call(
        &mut self,
        places: usize,
        ours: impl FnOnce(&mut [u32], &mut [u32]) -> u32,
        theirs: Answer,
        asked: impl Display,
    ) -> Both {
        let [mut words, mut list] = [VALUES, places].map(before);
        let number = ours(&mut words, &mut list);
        let their_words = after(before(VALUES), &theirs.words);
        let their_list = after(before(places), &theirs.list);
        let place = self.numbers.iter().position(|&n| n == theirs.number);
        let answers = &mut self.answers[place.expect("one of the numbers of the entry")];
        let [ours, expected] = [(number, &words), (theirs.number, &their_words)];
        answers.check(ours, expected, format_args!("{asked}"));
        self.lent
            .check_words(&list, &their_list, format_args!("{asked}"));
        let ours = Answer {
            number,
            words,
            list,
        };
        Both { ours, theirs }
    }

    /// A number that never comes up is a failure of the inputs.
    pub fn subjects(self) -> Vec<Subject> {
        let mut subjects = self.answers;
        for (number, subject) in self.numbers.iter().zip(&mut subjects) {
            subject.require(subject.compared, format_args!("number {number}"));
        }
        subjects.push(self.lent);
        subjects
    }
}

/// All inputs of an entry point for which nothing else is counted.
pub fn compare_all<I: Input + Display>(
    name: &'static str,
    numbers: &'static [u32],
    inputs: impl IntoIterator<Item = I>,
) -> Vec<Subject> {
    let mut entry = Entry::new(name, numbers);
    for input in inputs {
        entry.compare(&input, &input);
    }
    entry.subjects()
}
