//! The link entry point: in the order of document 01 against the oracle's rules, and without order against upstream. A legacy
//! board with an even row count is rotated by 90° for upstream.

use crate::entry::Entry;
use crate::subject::{Subject, of_legacy_boards};
use cases::answer::Answer;
use cases::link_entry::{
    self, LinkInput, WORDS_OF_A_VIOLATION, most_of_one_link, of_most_links, on_changed_boards,
    pairs_of_refusals, random_input, single_changes, whole_board,
};
use cases::prng::Prng;
use theirs::unordered;

const LOOK_ALIKES: usize = 12_000;

pub fn compare() -> Vec<Subject> {
    let look_alikes = |seed: u64| Prng::new(seed).many(LOOK_ALIKES, link_entry::on_look_alikes);
    [
        compare_all("links", false, inputs(8, false)),
        of_legacy_boards(compare_all("links", true, inputs(38, true))),
        // Boards with codes that are equal up to rotation (document 02, 2.2).
        compare_all("links, equal codes", false, look_alikes(44)),
        of_legacy_boards(compare_all("links, equal codes", true, look_alikes(45))),
    ]
    .concat()
}

fn inputs(seed: u64, legacy: bool) -> Vec<LinkInput> {
    let mut prng = Prng::new(seed);
    let groups = [
        single_changes(),
        most_of_one_link(),
        pairs_of_refusals(),
        on_changed_boards(&mut prng, 3_000),
        prng.many(30_000, |prng| random_input(prng, legacy)),
        prng.many(2_000, |prng| whole_board(prng, legacy)),
        of_most_links(&mut prng, legacy),
    ];
    groups.concat()
}

/// A kind of violation that never comes up is a failure of the inputs.
fn compare_all(name: &'static str, legacy: bool, inputs: Vec<LinkInput>) -> Vec<Subject> {
    let mut entry = Entry::new(name, &[0, 1, 2, 3, 4, 5, 6, 7, 8, 22, 19, 14]);
    let mut against_rust = Subject::new(format!("{name}, without order, against upstream"));
    let rules_name = format!("{name}, the oracle's rules without order, against upstream");
    let mut against_rules = Subject::new(rules_name);
    let mut of_kinds = [0u64; 5];
    for mut input in inputs {
        input.board.legacy_pattern = legacy;
        let input = &input;
        let both = entry.compare(input, input);
        let rust = theirs::links_by_rust(input);
        for violation in rust.iter().flatten() {
            of_kinds[violation[1] as usize - 1] += 1;
        }
        let [ours, rules] = [&told(both.ours), &both.theirs].map(unordered);
        against_rust.check(&ours, &rust, format_args!("{input}"));
        against_rules.check(&rules, &rust, format_args!("{input}"));
    }
    let up = Subject::of_cases(format!("{name}, violations by kind"), (1..).zip(of_kinds));
    let mut subjects = entry.subjects();
    subjects.extend([against_rust, against_rules, up]);
    subjects
}

/// The written part of our answer. More violations than there is room for would be an error that the answer itself shows.
fn told(ours: Answer) -> Answer {
    let count = ours.words[0] as usize;
    match ours.number {
        0 => {
            let violations = ours.list.as_chunks::<WORDS_OF_A_VIOLATION>().0;
            Answer::of_results(&violations[..count.min(violations.len())])
        }
        7 => Answer {
            words: ours.words[..2].to_vec(),
            ..Answer::refused(7)
        },
        number => Answer::refused(number),
    }
}
