//! Prints a log (document 02, 2.9) of records of every kind, or what the program `reread` must print for it: the answers of upstream,
//! and of the oracle's own rules where upstream has none. This library is not used. It stops if the log would not show what it
//! should.

use matches::given::{KINDS, Kind, LEGACY_KINDS, LONGEST_KINDS, RESTATE_KINDS};
use matches::logs::{Entry, HEADER, Known, Log, Shown, WRONG, printed_numbers};
use matches::told;
use records::LONGEST;
use std::collections::HashMap;
use std::io::{self, Write};
use std::process::ExitCode;

/// Of each kind so many records are looked at, and so many chosen.
const LOOKED_AT: usize = 100;
const OF_EACH_KIND: usize = 6;

/// Others are chosen until so many have each number.
const OF_EACH_NUMBER: usize = 3;

/// No chosen record is longer, but for kinds that have longer ones alone. A table has 2,044 bytes.
const LONG: usize = 2_400;

const MOST_BYTES: usize = 1_000_000;

/// The wrong programs that a log does not show which begins with 0 twice and ends with a cut entry of 65,540 bytes that is
/// backward.
const NOT_SHOWN: [&str; 6] = [
    "5 bytes taken for an entry",
    "a whole entry at the end taken for cut off",
    "a gap from 0 to the first entry",
    "a gap before a cut entry",
    "no line of a cut header",
    "a count of 0 after a whole entry",
];

fn main() -> ExitCode {
    let arguments: Vec<String> = std::env::args().skip(1).collect();
    let (bytes, text) = match &arguments[..] {
        [name] if name == "stdin" || name == "stdout" => checked(),
        _ => {
            eprintln!("usage: log stdin|stdout");
            return ExitCode::FAILURE;
        }
    };
    let printed = if arguments[0] == "stdin" {
        bytes
    } else {
        text.into_bytes()
    };
    match io::stdout().lock().write_all(&printed) {
        Ok(()) => ExitCode::SUCCESS,
        Err(error) => {
            eprintln!("{error}");
            ExitCode::FAILURE
        }
    }
}

/// The bytes of the log, and the text.
fn checked() -> (Vec<u8>, String) {
    let mut known = Known::default();
    let log = log(&mut known);
    let bytes = log.bytes();
    let texts = log.texts(&mut known);
    let mut shown = Shown::default();
    shown.add(&log, &bytes, &texts, &mut known);
    for number in printed_numbers() {
        assert!(shown.numbers.contains_key(&number), "number {number}");
    }
    let wrong = WRONG.iter().zip(shown.wrong);
    let not_shown: Vec<&str> = wrong
        .filter(|(_, count)| *count == 0)
        .map(|(wrong, _)| wrong.name)
        .collect();
    assert_eq!(not_shown, NOT_SHOWN, "wrong programs that do not show");
    assert!(bytes.len() <= MOST_BYTES, "{} bytes", bytes.len());
    eprintln!("{} entries, {} bytes", log.entries.len(), bytes.len());
    (bytes, texts.concat())
}

/// The last entry lacks one byte.
fn log(known: &mut Known) -> Log {
    let mut records = chosen(known);
    records.push(vec![0; LONGEST]);
    let numbers = numbers(records.len());
    let entries = numbers.into_iter().zip(records);
    let entries: Vec<Entry> = entries
        .map(|(number, record)| Entry { number, record })
        .collect();
    let lengths = entries.iter().map(|entry| HEADER + entry.record.len());
    let length: usize = lengths.sum();
    Log::cut_after(entries, length - 1)
}

/// Two empty ones, some of every kind, and two of 65,535 bytes of which one is placed.
fn chosen(known: &mut Known) -> Vec<Vec<u8>> {
    let mut records = vec![Vec::new(); 2];
    let mut of_number: HashMap<u32, usize> = HashMap::new();
    for kind in KINDS.iter().chain(&LEGACY_KINDS) {
        let looked_at = first(kind, LOOKED_AT);
        let shortest = looked_at.iter().map(Vec::len).min();
        let longest = shortest.unwrap_or(0).max(LONG);
        let mut of_kind = 0;
        for record in looked_at {
            let number = told(&known.matched(&record)).number;
            let of_number = of_number.entry(number).or_default();
            let is_chosen = of_kind < OF_EACH_KIND || *of_number < OF_EACH_NUMBER;
            if record.len() <= longest && is_chosen {
                of_kind += 1;
                *of_number += 1;
                records.push(record);
            }
        }
    }
    let longest = RESTATE_KINDS.last().expect("those of 65,535 bytes");
    for kind in [&LONGEST_KINDS[0], longest] {
        let mut looked_at = first(kind, LOOKED_AT).into_iter();
        records.extend(looked_at.find(|record| record.len() == LONGEST));
    }
    records
}

fn first(kind: &Kind, count: usize) -> Vec<Vec<u8>> {
    let given = kind.first(count.min(kind.count));
    given.map(|given| given.record).collect()
}

const HALF: u32 = 1 << 31;
const MAX: u32 = u32::MAX;

const FIRST: [u32; 5] = [0, 0, 1, 3, 3];

/// By the highest number and the last.
const STEPS: [fn(u32, u32) -> u32; 20] = [
    |highest, _| highest + 1,
    |highest, _| highest + 2,
    |highest, _| highest + 1,
    |highest, _| highest,
    |highest, _| highest + 1,
    |highest, _| highest + 3,
    |highest, _| highest - 1,
    |_, last| last + 1,
    |highest, _| highest + 2,
    |highest, _| highest + 1,
    |highest, _| highest - 3,
    |_, last| last,
    |_, last| last + 1,
    |_, last| last - 2,
    |highest, _| highest + 1,
    |_, _| 0,
    |highest, _| highest + 1_000,
    |highest, _| highest,
    |highest, _| highest + 20_000_000,
    |highest, _| highest + 1,
];

/// The last one is of the entry that is cut off.
#[rustfmt::skip]
const LAST: [u32; 14] = [
    HALF - 1, HALF, HALF + 2, 5, HALF + 3, HALF + 1, MAX - 2, MAX - 1, MAX, MAX, 0, 1, MAX - 1, 7,
];

fn numbers(count: usize) -> Vec<u32> {
    let mut numbers = FIRST.to_vec();
    for step in STEPS.iter().cycle().take(count - FIRST.len() - LAST.len()) {
        let [highest, last] = [numbers.iter().max(), numbers.last()];
        let [highest, last] = [highest, last].map(|number| *number.expect("there are some"));
        numbers.push(step(highest, last));
    }
    numbers.extend(LAST);
    numbers
}
