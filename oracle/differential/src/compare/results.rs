//! The block of a whole run in `oracle/RESULTS.md`: a table with a row for each name of a subject.

use crate::subject::Subject;
use cases::results::{number, table};

pub fn block(groups: &[(&str, Vec<Subject>)], compared: u64) -> String {
    let mut rows = Vec::new();
    for (group, subjects) in groups {
        rows.push([format!("{group}:"), String::new(), String::new()]);
        for name in names(subjects) {
            let [compared, legacy] = [false, true].map(|legacy| cell(subjects, name, legacy));
            rows.push([name.to_owned(), compared, legacy]);
        }
    }
    let rows: Vec<Vec<String>> = rows.into_iter().map(Vec::from).collect();
    let heads = ["subject", "compared", "on legacy boards"];
    let all = number(compared);
    format!(
        "{all} answers were compared, and none differs.\n\n{}",
        table(&heads, &rows)
    )
}

/// In the order in which they first come up.
fn names(subjects: &[Subject]) -> Vec<&str> {
    let mut names = Vec::new();
    for subject in subjects {
        if !names.contains(&&subject.name[..]) {
            names.push(&subject.name[..]);
        }
    }
    names
}

/// More cases than these two, of best and runner-up, are not listed.
const LISTED: usize = 2;

/// A count; or the counts of two cases; or of many cases the least count, success apart. A run prints all of them.
fn cell(subjects: &[Subject], name: &str, legacy: bool) -> String {
    let is_of_name = |subject: &&Subject| subject.name == name && subject.legacy == legacy;
    let of_name: Vec<&Subject> = subjects.iter().filter(is_of_name).collect();
    let numbers: Vec<(u32, u64)> = (of_name.iter())
        .filter_map(|subject| Some((subject.expected?, subject.compared)))
        .collect();
    match (&numbers[..], &of_name[..]) {
        ([(0, success), refused @ ..], _) => {
            let counts = refused.iter().map(|&(_, count)| count);
            let least = least(counts, "errors");
            format!("{}; {least}", number(*success))
        }
        (_, [subject]) if subject.cases.is_empty() => number(subject.compared),
        (_, [subject]) if subject.cases.len() > LISTED => {
            least(subject.cases.iter().map(|&(_, count)| count), "cases")
        }
        (_, [subject]) => {
            let cases = subject.cases.iter();
            let counts = cases.map(|(_, count)| number(*count));
            counts.collect::<Vec<_>>().join("; ")
        }
        _ => String::new(),
    }
}

fn least(counts: impl ExactSizeIterator<Item = u64>, of_what: &str) -> String {
    let total = counts.len();
    let least = counts.min().unwrap_or(0);
    format!("{total} {of_what} ≥ {}", number(least))
}
