//! Rotated codes and Hamming distances.

use crate::subject::Subject;
use cases::codes::{SIDES, TURNS, patterns, random_code, single_bits};
use cases::prng::Prng;
use differential::ours;
use theirs::CodeMatcher;

const RANDOM_CODES: usize = 15_000;
const CODES_FOR_LARGE_TURNS: usize = 40;
const PAIRS: usize = 50_000;
const DICTIONARY: usize = 30;
const READ_CODES: usize = 500;

pub fn compare() -> Vec<Subject> {
    let mut prng = Prng::new(1);
    let mut turned = Subject::new("rotated code, rotations 0 to 3");
    for side in SIDES {
        let random = random_codes(&mut prng, side, RANDOM_CODES);
        let codes = [&patterns(side)[..], &single_bits(side), &random].concat();
        check_turns(&mut turned, &codes, side, TURNS);
    }
    // Upstream takes a rotation above 3 as what is left of it after whole rounds.
    let mut large_turns = Subject::new("rotated code, rotations 4 to 255");
    for side in SIDES {
        let codes = random_codes(&mut prng, side, CODES_FOR_LARGE_TURNS);
        check_turns(&mut large_turns, &codes, side, TURNS.end..=u8::MAX);
    }
    let differing = differing_bits(&mut prng);
    let best = best_matches(&mut prng);
    vec![turned, large_turns, differing, best]
}

fn random_codes(prng: &mut Prng, side: u8, count: usize) -> Vec<u64> {
    prng.many(count, |prng| random_code(prng, side))
}

fn check_turns(
    subject: &mut Subject,
    codes: &[u64],
    side: u8,
    turns: impl Iterator<Item = u8> + Clone,
) {
    for &code in codes {
        for turn in turns.clone() {
            let ours = ours::rotate_code(code, side, turn);
            let theirs = theirs::rotate_code(code, side, turn);
            let asked = format_args!("code {code:X}, side {side}, turn {turn}");
            subject.check(ours, theirs, asked);
        }
    }
}

/// `matcher.rs` counts inside a loop, so the same expression is here; `best_matches` runs the loop.
fn differing_bits(prng: &mut Prng) -> Subject {
    let mut subject = Subject::new("Hamming distance");
    let mut check = |a: u64, b: u64| {
        let [ours, theirs] = [ours::differing_bits(a, b), (a ^ b).count_ones()];
        subject.check(ours, theirs, format_args!("{a:X} and {b:X}"));
    };
    let telling = [&patterns(8)[..], &single_bits(8)].concat();
    for &a in &telling {
        telling.iter().for_each(|&b| check(a, b));
    }
    for _ in 0..PAIRS {
        check(prng.draw(), prng.draw());
    }
    subject
}

/// Our rotated codes and counts, put together as the matcher of upstream does it.
fn best_matches(prng: &mut Prng) -> Subject {
    let mut subject = Subject::new("best match of a code");
    for side in SIDES {
        let codes = random_codes(prng, side, DICTIONARY);
        let matcher = CodeMatcher::new(&codes, side);
        for read in random_codes(prng, side, READ_CODES) {
            let [ours, theirs] = [our_best_match(&codes, side, read), matcher.best(read)];
            let asked = format_args!("read {read:X}, side {side}, codes {codes:X?}");
            subject.check(ours, theirs, asked);
        }
    }
    subject
}

/// The first of the codes and rotations with the fewest differing bits.
fn our_best_match(codes: &[u64], side: u8, read: u64) -> Option<(u32, u8, u32)> {
    let candidates = (0..).zip(codes).flat_map(|(id, &code)| {
        let differing = move |turn| ours::differing_bits(read, ours::rotate_code(code, side, turn));
        TURNS.map(move |turn| (id, turn, differing(turn)))
    });
    candidates.min_by_key(|&(_, _, differing)| differing)
}
