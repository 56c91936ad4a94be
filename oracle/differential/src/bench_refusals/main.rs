//! How long this library takes to refuse a match: `bench_refusals`. Prints a line for each number, its fields separated by
//! tabs, for the largest record that fails the check and passes those before it, and the largest match, number 0; last those
//! of a match with scores. Ends with 1 if a number is not the one expected.

mod largest;

use differential::bench::{Side, best_of_each, runs, warn_of_checks};
use differential::entries::{Input, match_board_with_scores};
use largest::{Asked, asked};
use matches::{ANSWER_WORDS, match_record_with_scores};
use std::hint::black_box;
use std::process::ExitCode;

fn main() -> ExitCode {
    warn_of_checks();
    let all = asked();
    let times = best_of_each(&all.iter().map(side).collect::<Vec<_>>());
    println!("number\trecord\tbytes\tcells\tscores\tours, ns");
    let mut agree = true;
    for (asked, time) in all.iter().zip(times) {
        let Asked { number, what, .. } = asked;
        let [bytes, cells] = [asked.given.record.len(), asked.cells];
        let scores = asked.scores.map_or(String::new(), |n| n.to_string());
        println!("{number}\t{what}\t{bytes}\t{cells}\t{scores}\t{time:.0}");
        agree &= agrees(asked);
    }
    ExitCode::from(u8::from(!agree))
}

fn side(asked: &Asked) -> Side<'_> {
    Side::ours(move |count| {
        let mut call = call(asked);
        let mut values = [0; ANSWER_WORDS];
        let mut lent = vec![0; asked.given.places];
        runs(count, move || call(&mut values, black_box(&mut lent)))
    })
}

type Call<'a> = Box<dyn FnMut(&mut [u32], &mut [u32]) -> u32 + Send + 'a>;

/// The match, with scores if there is an array for them, which is made before the call.
fn call(Asked { given, scores, .. }: &Asked) -> Call<'_> {
    let Some(elements) = *scores else {
        return given.ours();
    };
    let mut scores = vec![1; elements];
    Box::new(move |values, lent| {
        match_board_with_scores(&given.record, black_box(&mut scores), lent, values)
    })
}

/// Is the number as expected, by this library and by the oracle?
fn agrees(asked: &Asked) -> bool {
    let Asked { number, given, .. } = asked;
    let ours = call(asked)(&mut [0; ANSWER_WORDS], &mut vec![0; given.places]);
    let theirs = match asked.scores {
        None => given.theirs(),
        Some(scores) => match_record_with_scores(&given.record, given.places, scores).answer,
    };
    let theirs = theirs.number;
    let agrees = [ours, theirs] == [*number; 2];
    if !agrees {
        eprintln!("{number} is expected, this library returns {ours}, the oracle {theirs}");
    }
    agrees
}
