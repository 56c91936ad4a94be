//! The differential run: gives this library and upstream the same inputs, and ends with 1 if an answer differs. Names of
//! groups as arguments restrict it to these. A run of all groups ends with 1 too if `oracle/RESULTS.md` has other counts;
//! `--write` writes them there.

mod alignments;
mod codes;
mod entries;
mod entry;
mod layout;
mod links;
mod logs;
mod matches;
mod records;
mod restated;
mod results;
mod run;
mod score_arrays;
mod scores;
mod subject;

use std::process::ExitCode;
use subject::Subject;

/// The block of `oracle/RESULTS.md`.
const BLOCK: &str = "compare";

/// A group of subjects by its name.
type Group = (&'static str, fn() -> Vec<Subject>);

/// In the order of the run.
const GROUPS: [Group; 14] = [
    ("codes", codes::compare),
    ("layout", layout::compare),
    ("refusals", entries::refusals),
    ("alignments", alignments::compare),
    ("scores", scores::compare),
    ("cells", entries::cells),
    ("corners", entries::corners),
    ("links", links::compare),
    ("records", records::compare),
    ("matches", matches::compare),
    ("score_arrays", score_arrays::compare),
    ("restated", restated::compare),
    ("program", matches::compare_program),
    ("logs", logs::compare),
];

fn main() -> ExitCode {
    let (options, names): (Vec<String>, Vec<String>) =
        std::env::args().skip(1).partition(|word| word == "--write");
    let is_known = |name: &String| GROUPS.iter().any(|(known, _)| known == name);
    let writes = !options.is_empty();
    if !names.iter().all(is_known) || writes && !names.is_empty() {
        let known = GROUPS.map(|(name, _)| name);
        eprintln!("usage: compare [--write | GROUP...], of {known:?}");
        return ExitCode::FAILURE;
    }
    let [mut compared, mut different] = [0; 2];
    let mut groups = Vec::new();
    for (name, compare) in GROUPS {
        if names.is_empty() || names.iter().any(|asked| asked == name) {
            let subjects = compare();
            for subject in &subjects {
                print!("{subject}");
                compared += subject.compared;
                different += subject.different;
            }
            groups.push((name, subjects));
        }
    }
    println!("all: {compared} compared, {different} different");
    if different != 0 {
        return ExitCode::FAILURE;
    }
    if names.is_empty() {
        let block = results::block(&groups, compared);
        if let Err(message) = cases::results::settle(BLOCK, &block, writes) {
            eprintln!("{message}");
            return ExitCode::FAILURE;
        }
    }
    ExitCode::SUCCESS
}
