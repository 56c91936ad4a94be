//! Inputs at the limits of the link entry point's checks and past them, one limit at a time and two at once.

use super::random::TWINS;
use super::{LinkInput, MOST_LINKS, WORDS_FOR_A_LINK, example};
use crate::boards::{changed_boards, with_look_alikes};
use crate::entries::{self, changed, lengths_around};
use crate::prng::Prng;

type Change = fn(&mut LinkInput);

/// Past every limit of the entry point's own checks.
const REFUSALS: [Change; 4] = [
    |input| grow(input, MOST_LINKS + 1),
    |input| grow(input, 2 * MOST_LINKS),
    |input| input.places = 0,
    |input| input.places = WORDS_FOR_A_LINK * input.links().len() - 1,
];

/// How many links there are.
const COUNTS: [usize; 4] = [MOST_LINKS - 1, MOST_LINKS, MOST_LINKS + 1, MOST_LINKS + 5];

/// Each pair of refusals, each of them alone, and none.
pub fn pairs_of_refusals() -> Vec<LinkInput> {
    entries::pairs_of_refusals(&example(true), |input| &mut input.board, &REFUSALS)
}

/// P8 and inputs that are like it, with lists of every length around the one that is needed.
pub fn single_changes() -> Vec<LinkInput> {
    let mut all = Vec::new();
    for all_four in [false, true] {
        let good = example(all_four);
        let mut changed = |change: &dyn Fn(&mut LinkInput)| all.push(changed(&good, change));
        for words in 0..=7 {
            changed(&|input| {
                input.words.resize(words, 3);
                input.places = WORDS_FOR_A_LINK * (words / 2);
            });
        }
        for places in lengths_around(good.places).chain([0, 1, 12, 36, 48]) {
            changed(&|input| input.places = places);
            changed(&|input| {
                // None of them is a violation.
                input.words = vec![3, 1, 3, 2, 3, 6];
                input.places = places;
            });
        }
        for far in TWINS {
            changed(&|input| {
                let twins = [[3, 1], [3 + far, 1], [3, 9], [3 + far, 9]];
                *input = LinkInput::new(input.board, &[twins; 2].concat(), all_four);
            });
        }
        for count in COUNTS {
            changed(&|input| grow(input, count));
            changed(&|input| {
                grow(input, count);
                input.words.push(3);
            });
            changed(&|input| {
                grow(input, count);
                input.places -= 1;
            });
        }
    }
    all
}

/// P8 on boards that may be refused.
pub fn on_changed_boards(prng: &mut Prng, count: usize) -> Vec<LinkInput> {
    let boards = changed_boards(prng, count).into_iter();
    let inputs = boards.map(|board| LinkInput {
        board,
        ..example(prng.one_in(2))
    });
    inputs.collect()
}

/// P8 on boards with codes that are equal up to rotation, and now and then past a limit of the entry point's own checks.
pub fn on_look_alikes(prng: &mut Prng) -> LinkInput {
    let mut input = LinkInput {
        board: with_look_alikes(prng),
        ..example(prng.one_in(2))
    };
    if prng.one_in(4) {
        prng.pick(&REFUSALS)(&mut input);
    }
    input
}

fn grow(input: &mut LinkInput, count: usize) {
    while input.links().len() < count {
        input.add([3, 2]);
    }
}
