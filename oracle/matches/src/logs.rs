//! Logs (document 02, 2.9), and what the program `reread` prints for one. Upstream has none, so the rules are the oracle's,
//! written from the document: a writer and a reader, each without the other, and the text. The answer to each record is upstream's
//! as elsewhere.

mod cases;
mod wrong;

use crate::answer::{MOST_PLACES, Matched, NUMBERS};
use crate::questions::match_record;
use crate::text::line;
use records::REFUSED;
use std::collections::HashMap;
use std::rc::Rc;

pub use self::cases::CASES;
pub use wrong::WRONG;

/// Number and length, the bytes of an entry before its record.
pub const HEADER: usize = 6;

/// The most bytes that the lines of an entry have.
pub const LONGEST_LINES: usize = 76;

/// The numbers that `place` may print: its output array is always long enough.
pub fn printed_numbers() -> impl Iterator<Item = u32> {
    NUMBERS.into_iter().filter(|&number| number != 14)
}

#[derive(Clone, Debug, PartialEq, Eq)]
pub struct Entry {
    pub number: u32,
    pub record: Vec<u8>,
}

/// Whole entries, and the bytes of one that is cut off.
#[derive(Clone, Debug, Default, PartialEq, Eq)]
pub struct Log {
    pub entries: Vec<Entry>,
    /// None where the last entry is whole.
    pub cut: Vec<u8>,
}

impl Entry {
    /// The writer.
    pub fn bytes(&self) -> Vec<u8> {
        let length = u16::try_from(self.record.len()).expect("no record is longer");
        [
            &self.number.to_le_bytes()[..],
            &length.to_le_bytes(),
            &self.record,
        ]
        .concat()
    }
}

impl Log {
    pub fn bytes(&self) -> Vec<u8> {
        let mut bytes: Vec<u8> = self.entries.iter().flat_map(Entry::bytes).collect();
        bytes.extend(&self.cut);
        bytes
    }

    /// The first bytes of a log of these entries.
    pub fn cut_after(mut entries: Vec<Entry>, length: usize) -> Self {
        let mut whole = 0;
        let mut left = length;
        for entry in &entries {
            let needed = HEADER + entry.record.len();
            if left < needed {
                break;
            }
            left -= needed;
            whole += 1;
        }
        let cut = entries.get(whole).map(Entry::bytes).unwrap_or_default();
        entries.truncate(whole);
        Self {
            entries,
            cut: cut.into_iter().take(left).collect(),
        }
    }

    /// The reader, of any bytes.
    pub fn read(bytes: &[u8]) -> Self {
        read_by(bytes, |rest| {
            let (header, rest) = rest.split_at_checked(HEADER)?;
            let (number, length) = header.split_at(4);
            let (record, rest) = rest.split_at_checked(little_endian(length) as usize)?;
            Some((little_endian(number), record, rest))
        })
    }

    /// What is printed for each entry, and last for the one that is cut off.
    pub fn texts(&self, known: &mut Known) -> Vec<String> {
        RIGHT.texts(self, known)
    }

    fn length(&self) -> usize {
        let entries = self.entries.iter();
        let whole: usize = entries.map(|entry| HEADER + entry.record.len()).sum();
        whole + self.cut.len()
    }
}

/// Number and record of the first entry of the bytes, and the bytes after it; none if it is cut off.
type First = for<'a> fn(&'a [u8]) -> Option<(u32, &'a [u8], &'a [u8])>;

fn read_by(bytes: &[u8], first: First) -> Log {
    let mut log = Log::default();
    let mut left = bytes;
    while let Some((number, record, rest)) = first(left) {
        let record = record.to_vec();
        log.entries.push(Entry { number, record });
        left = rest;
    }
    log.cut = left.to_vec();
    log
}

fn little_endian(bytes: &[u8]) -> u32 {
    let highest_first = bytes.iter().rev();
    highest_first.fold(0, |number, &byte| number << 8 | u32::from(byte))
}

/// How many bytes an entry lacks that is cut off after its header.
fn missing(cut: &[u8]) -> Option<usize> {
    let length = little_endian(cut.get(4..HEADER)?) as usize;
    Some(HEADER + length - cut.len())
}

/// The answers to records that are read, which take long. The others are refused at once.
#[derive(Default)]
pub struct Known(HashMap<Vec<u8>, Rc<Matched>>);

impl Known {
    pub fn matched(&mut self, record: &[u8]) -> Rc<Matched> {
        if let Some(known) = self.0.get(record) {
            return Rc::clone(known);
        }
        let matched = Rc::new(match_record(record, MOST_PLACES));
        if number(&matched) != REFUSED {
            self.0.insert(record.to_vec(), Rc::clone(&matched));
        }
        matched
    }
}

/// 0 if the record is placed.
fn number(matched: &Matched) -> u32 {
    matched.as_ref().err().map_or(0, |refused| refused.number)
}

/// A program like `reread`, by its parts.
#[derive(Clone, Copy)]
struct Program {
    read: fn(&[u8]) -> Log,
    /// Is the entry's number compared with later ones?
    is_kept: fn(&Entry, &Matched) -> bool,
    /// The line before that of an entry, by the numbers of the entries before it and its own.
    step: fn(&[u32], u32) -> String,
    lines: fn(&Lines) -> String,
    end: fn(&End) -> String,
}

/// Of which the lines of an entry are made.
struct Lines<'a> {
    /// How many entries are before it.
    place: usize,
    step: &'a str,
    number: u32,
    matched: &'a Matched,
}

/// Of which the last line is made.
struct End<'a> {
    /// Of the whole entries.
    numbers: &'a [u32],
    cut: &'a [u8],
    /// Of the log.
    length: usize,
}

const RIGHT: Program = Program {
    read: Log::read,
    is_kept: |_, _| true,
    step,
    lines,
    end,
};

/// The highest number is compared. The first entry has neither line.
fn step(before: &[u32], number: u32) -> String {
    compared(highest(before), number)
}

fn highest(numbers: &[u32]) -> Option<u32> {
    numbers.iter().copied().max()
}

fn compared(highest: Option<u32>, number: u32) -> String {
    match highest {
        None => String::new(),
        Some(highest) if number <= highest => "backward\n".into(),
        Some(highest) if number - highest == 1 => String::new(),
        Some(highest) => format!("gap {} {}\n", highest + 1, number - 1),
    }
}

fn lines(of: &Lines) -> String {
    format!("{}entry {} {}\n", of.step, of.number, line(of.matched))
}

/// The count is that of the bytes from the entry's first to the end.
fn end(of: &End) -> String {
    match of.cut.len() {
        0 => String::new(),
        count => format!("refused 26 {count}\n"),
    }
}

impl Program {
    fn texts(&self, log: &Log, known: &mut Known) -> Vec<String> {
        let mut texts = Vec::new();
        let mut numbers = Vec::new();
        for (place, entry) in log.entries.iter().enumerate() {
            let number = entry.number;
            let matched = known.matched(&entry.record);
            texts.push((self.lines)(&Lines {
                place,
                step: &(self.step)(&numbers, number),
                number,
                matched: &matched,
            }));
            if (self.is_kept)(entry, &matched) {
                numbers.push(number);
            }
        }
        texts.push((self.end)(&End {
            numbers: &numbers,
            cut: &log.cut,
            length: log.length(),
        }));
        texts
    }
}

/// In how many logs each of them comes up, by their places; and in how many entries each number.
#[derive(Clone, Debug)]
pub struct Shown {
    pub cases: [usize; CASES.len()],
    pub wrong: [usize; WRONG.len()],
    pub numbers: HashMap<u32, usize>,
}

impl Default for Shown {
    fn default() -> Self {
        Self {
            cases: [0; CASES.len()],
            wrong: [0; WRONG.len()],
            numbers: HashMap::new(),
        }
    }
}

impl Shown {
    /// A log, its bytes, and what is printed.
    pub fn add(&mut self, log: &Log, bytes: &[u8], texts: &[String], known: &mut Known) {
        let records = log.entries.iter().map(|entry| &entry.record);
        let matched: Vec<Rc<Matched>> = records.map(|record| known.matched(record)).collect();
        for matched in &matched {
            *self.numbers.entry(number(matched)).or_default() += 1;
        }
        let seen = cases::Seen::new(log, &matched, texts);
        for (count, case) in self.cases.iter_mut().zip(&CASES) {
            *count += usize::from((case.is_so)(&seen));
        }
        let text = texts.concat();
        for (count, wrong) in self.wrong.iter_mut().zip(&WRONG) {
            *count += usize::from(wrong.is_shown_by(bytes, &text, known));
        }
    }
}
