//! How many of the answers show that the counts of contributing cells are not wrong ones, and which counts come up.

use crate::subject::Subject;
use matches::counts::{PAIRS, Shown, WRONG};

/// A wrong count that no answer would show, and a pair of counts that never comes up, are failures of the inputs.
pub fn subjects(shown: &Shown) -> Vec<Subject> {
    let of_wrong = WRONG.iter().zip(shown.wrong);
    let mut subjects: Vec<Subject> = of_wrong
        .map(|(wrong, [best, next])| {
            let cases = [("best", best as u64), ("runner-up", next as u64)];
            Subject::of_cases(format!("wrong count: {}", wrong.name), cases)
        })
        .collect();
    let pairs = PAIRS.iter().zip(shown.pairs);
    let pairs = pairs.map(|(pair, count)| (pair.name, count as u64));
    subjects.push(Subject::of_cases("contributing cells", pairs));
    subjects
}
