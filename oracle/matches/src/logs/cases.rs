//! What must come up among the logs.

use super::{Entry, HEADER, LONGEST_LINES, Log, little_endian, missing, number};
use crate::answer::Matched;
use records::{LONGEST, REFUSED, settings};
use std::rc::Rc;

/// A log, the answers to its records, and what is printed for each entry.
pub(super) struct Seen<'a> {
    log: &'a Log,
    matched: &'a [Rc<Matched>],
    texts: &'a [String],
    numbers: Vec<u32>,
    /// Of each entry but the first, and of the one that is cut off, if it has its number.
    steps: Vec<Step>,
}

pub struct Case {
    pub name: &'static str,
    pub(super) is_so: fn(&Seen) -> bool,
}

const fn case(name: &'static str, is_so: fn(&Seen) -> bool) -> Case {
    Case { name, is_so }
}

/// The numbers of an entry that is not the first, and of those before it.
struct Step {
    highest: u32,
    last: u32,
    number: u32,
}

impl Step {
    const fn is_backward(&self) -> bool {
        self.number <= self.highest
    }

    /// Over the highest number before; 0 if there is none.
    const fn rise(&self) -> u32 {
        self.number.saturating_sub(self.highest)
    }

    /// Is the entry before it backward, and below the highest number?
    const fn is_after_lower(&self) -> bool {
        self.last < self.highest
    }
}

const MAX: u32 = u32::MAX;
const HALF: u32 = 1 << 31;

pub const CASES: [Case; 65] = [
    case("an empty log", |seen| {
        seen.log.entries.is_empty() && seen.log.cut.is_empty()
    }),
    case("one entry", |seen| seen.log.entries.len() == 1),
    case("100 entries or more", |seen| seen.log.entries.len() >= 100),
    case("10,924 entries or more", |seen| {
        seen.log.entries.len() >= (HEADER + LONGEST).div_ceil(HEADER)
    }),
    case("a whole entry at the end", |seen| seen.is_whole()),
    case("0 first", |seen| seen.first() == Some(0)),
    case("1 first", |seen| seen.first() == Some(1)),
    case("above 1 first", |seen| seen.first() > Some(1)),
    case("4,294,967,295 first, then others", |seen| {
        seen.first() == Some(MAX) && seen.log.entries.len() > 1
    }),
    case("4,294,967,295 in the middle", |seen| {
        let numbers = &seen.numbers;
        let place = numbers.iter().position(|&number| number == MAX);
        place.is_some_and(|place| place > 0 && place + 1 < numbers.len())
    }),
    case("4,294,967,295 at the end alone", |seen| {
        let numbers = &seen.numbers;
        let place = numbers.iter().position(|&number| number == MAX);
        place.is_some_and(|place| place > 0 && place + 1 == numbers.len())
    }),
    case("0 twice at the start", |seen| {
        seen.numbers.starts_with(&[0, 0])
    }),
    case("a rise from 0 by one", |seen| {
        seen.numbers.starts_with(&[0, 1])
    }),
    case(
        "a gap from 0",
        |seen| matches!(seen.numbers[..], [0, second, ..] if second > 1),
    ),
    case("a gap of all numbers between the ends", |seen| {
        seen.numbers.starts_with(&[0, MAX])
    }),
    case("4,294,967,295 twice", |seen| {
        seen.has(|step| step.highest == MAX && step.number == MAX)
    }),
    case("0 after 4,294,967,295", |seen| {
        seen.has(|step| step.highest == MAX && step.number == 0)
    }),
    case("1 after 4,294,967,295", |seen| {
        seen.has(|step| step.highest == MAX && step.number == 1)
    }),
    case("4,294,967,294, then 4,294,967,295", |seen| {
        seen.has(|step| step.highest == MAX - 1 && step.number == MAX)
    }),
    case("2,147,483,647, then 2,147,483,648", |seen| {
        seen.has(|step| step.highest == HALF - 1 && step.number == HALF)
    }),
    case("a gap over 2,147,483,648", |seen| {
        seen.has(|step| step.highest < HALF && step.number > HALF && step.rise() < 1_000)
    }),
    case("a rise by one", |seen| seen.has(|step| step.rise() == 1)),
    case("a gap of one number", |seen| {
        seen.has(|step| step.rise() == 2)
    }),
    case("a gap of two numbers", |seen| {
        seen.has(|step| step.rise() == 3)
    }),
    case("a gap of 2,147,483,648 numbers or more", |seen| {
        seen.has(|step| step.rise() > HALF)
    }),
    case("the highest number again", |seen| {
        seen.has(|step| step.number == step.highest)
    }),
    case("one below the highest", |seen| {
        seen.has(|step| step.highest.checked_sub(1) == Some(step.number))
    }),
    case("2,147,483,648 or more below the highest", |seen| {
        seen.has(|step| step.is_backward() && step.highest - step.number >= HALF)
    }),
    case("backward and above the last", |seen| {
        seen.has(|step| step.is_backward() && step.number > step.last)
    }),
    case("backward and one above the last", |seen| {
        seen.has(|step| step.is_backward() && step.last.checked_add(1) == Some(step.number))
    }),
    case("backward and the last again", |seen| {
        seen.has(|step| step.is_after_lower() && step.number == step.last)
    }),
    case("backward and two below the last", |seen| {
        seen.has(|step| step.is_after_lower() && step.last.checked_sub(2) == Some(step.number))
    }),
    case("a rise by one after a lower number", |seen| {
        seen.has(|step| step.is_after_lower() && step.rise() == 1)
    }),
    case("a gap after a lower number", |seen| {
        seen.has(|step| step.is_after_lower() && step.rise() > 1)
    }),
    case("a gap after the highest number again", |seen| {
        let mut three = seen.numbers.windows(3);
        three.any(|three| three[0] == three[1] && three[2].saturating_sub(three[1]) > 1)
    }),
    case("an empty record first", |seen| {
        let first = seen.log.entries.first();
        first.is_some_and(|entry| entry.record.is_empty())
    }),
    case("an empty record in the middle", |seen| {
        let [_, middle @ .., _] = &seen.log.entries[..] else {
            return false;
        };
        middle.iter().any(|entry| entry.record.is_empty())
    }),
    case("an empty record at the end", |seen| {
        let last = seen.log.entries.last();
        seen.is_whole() && last.is_some_and(|entry| entry.record.is_empty())
    }),
    case("empty records alone, of two entries or more", |seen| {
        let entries = &seen.log.entries;
        entries.len() > 1 && entries.iter().all(|entry| entry.record.is_empty())
    }),
    case("a gap before an empty record", |seen| {
        seen.has_text("gap", |entry| entry.record.is_empty())
    }),
    case("backward before an empty record", |seen| {
        seen.has_text("backward", |entry| entry.record.is_empty())
    }),
    case("a record of one byte", |seen| {
        seen.log.entries.iter().any(|entry| entry.record.len() == 1)
    }),
    case("65,535 bytes, placed", |seen| {
        seen.has_longest(|number| number == 0)
    }),
    case("65,535 bytes, refused 21", |seen| {
        seen.has_longest(|number| number == REFUSED)
    }),
    case("65,535 bytes, refused by another check", |seen| {
        seen.has_longest(|number| number != 0 && number != REFUSED)
    }),
    case("65,535 bytes twice in a row", |seen| {
        let mut pairs = seen.log.entries.windows(2);
        pairs.any(|pair| pair.iter().all(is_longest))
    }),
    case("65,535 bytes at the end", |seen| {
        seen.is_whole() && seen.log.entries.last().is_some_and(is_longest)
    }),
    case("a legacy record that is placed", |seen| {
        seen.has_placed(|entry| entry.record[0] & settings::LEGACY != 0)
    }),
    case("a record twice, of which one is backward", |seen| {
        let entries = seen.log.entries.iter();
        let mut of_text = entries.zip(seen.texts);
        of_text.any(|(entry, text)| {
            let mut others = seen.log.entries.iter();
            let is_again = |other: &Entry| other.record == entry.record && other != entry;
            text.starts_with("backward") && others.any(is_again)
        })
    }),
    case("lines of 75 bytes", |seen| {
        let mut texts = seen.texts.iter();
        texts.any(|text| text.len() == LONGEST_LINES - 1)
    }),
    case("cut off after 1 byte", |seen| seen.log.cut.len() == 1),
    case("cut off after 2 bytes", |seen| seen.log.cut.len() == 2),
    case("cut off after 3 bytes", |seen| seen.log.cut.len() == 3),
    case("cut off after 4 bytes", |seen| seen.log.cut.len() == 4),
    case("cut off after 5 bytes", |seen| seen.log.cut.len() == 5),
    case("cut off after the header", |seen| {
        seen.log.cut.len() == HEADER
    }),
    case("cut off in the record", |seen| {
        missing(&seen.log.cut) > Some(1) && seen.log.cut.len() > HEADER
    }),
    case("cut off a byte before the end", |seen| {
        missing(&seen.log.cut) == Some(1)
    }),
    case("cut off after 65,540 bytes", |seen| {
        seen.log.cut.len() == HEADER + LONGEST - 1
    }),
    case("the first entry cut off", |seen| {
        seen.log.entries.is_empty() && !seen.log.cut.is_empty()
    }),
    case("cut off after 100 entries or more", |seen| {
        seen.log.entries.len() >= 100 && !seen.log.cut.is_empty()
    }),
    case("cut off with a number that follows", |seen| {
        seen.cut_has(|step| step.rise() == 1)
    }),
    case("cut off in the header, with a gap", |seen| {
        let gap = seen.cut_has(|step| step.rise() > 1);
        gap && seen.log.cut.len() < HEADER
    }),
    case("cut off in the record, with a gap", |seen| {
        let gap = seen.cut_has(|step| step.rise() > 1);
        gap && seen.log.cut.len() > HEADER
    }),
    case("cut off, backward", |seen| seen.cut_has(Step::is_backward)),
];

fn is_longest(entry: &Entry) -> bool {
    entry.record.len() == LONGEST
}

impl<'a> Seen<'a> {
    pub fn new(log: &'a Log, matched: &'a [Rc<Matched>], texts: &'a [String]) -> Self {
        let numbers = log.entries.iter().map(|entry| entry.number);
        let numbers: Vec<u32> = numbers.collect();
        let of_cut = log.cut.get(..4).map(little_endian);
        let mut steps = Vec::new();
        let mut before: Option<[u32; 2]> = None;
        for number in numbers.iter().copied().chain(of_cut) {
            if let Some([highest, last]) = before {
                steps.push(Step {
                    highest,
                    last,
                    number,
                });
            }
            let highest = before.map_or(number, |[highest, _]| highest.max(number));
            before = Some([highest, number]);
        }
        Self {
            log,
            matched,
            texts,
            numbers,
            steps,
        }
    }

    fn first(&self) -> Option<u32> {
        self.numbers.first().copied()
    }

    fn is_whole(&self) -> bool {
        self.log.cut.is_empty() && !self.log.entries.is_empty()
    }

    /// Is there a whole entry of which this holds, but for the first?
    fn has(&self, is_so: fn(&Step) -> bool) -> bool {
        let count = self.numbers.len().saturating_sub(1);
        self.steps[..count].iter().any(is_so)
    }

    fn has_text(&self, start: &str, is_so: fn(&Entry) -> bool) -> bool {
        let mut of_text = self.log.entries.iter().zip(self.texts);
        of_text.any(|(entry, text)| text.starts_with(start) && is_so(entry))
    }

    fn has_placed(&self, is_so: fn(&Entry) -> bool) -> bool {
        let mut entries = self.log.entries.iter().zip(self.matched);
        entries.any(|(entry, matched)| matched.is_ok() && is_so(entry))
    }

    /// By the number of the answer.
    fn has_longest(&self, is_so: fn(u32) -> bool) -> bool {
        let mut entries = self.log.entries.iter().zip(self.matched);
        entries.any(|(entry, matched)| is_longest(entry) && is_so(number(matched)))
    }

    fn cut_has(&self, is_so: fn(&Step) -> bool) -> bool {
        let of_cut = self.steps.get(self.numbers.len().saturating_sub(1));
        of_cut.is_some_and(is_so)
    }
}
