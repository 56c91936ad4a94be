//! Wrong programs, each with one defect, which some log must show to be wrong.

use super::{End, Entry, HEADER, Known, Lines, Log, Program, RIGHT, compared, end, lines};
use super::{highest, little_endian, missing, number, read_by, step};
use crate::answer::Matched;
use crate::text::{line, text};
use std::mem::take;

pub struct Wrong {
    pub name: &'static str,
    program: Program,
}

impl Wrong {
    /// Does it print another text for these bytes than the right one?
    pub(super) fn is_shown_by(&self, bytes: &[u8], right: &str, known: &mut Known) -> bool {
        let log = (self.program.read)(bytes);
        self.program.texts(&log, known).concat() != right
    }
}

const fn reads(name: &'static str, read: fn(&[u8]) -> Log) -> Wrong {
    let program = Program { read, ..RIGHT };
    Wrong { name, program }
}

const fn keeps(name: &'static str, is_kept: fn(&Entry, &Matched) -> bool) -> Wrong {
    let program = Program { is_kept, ..RIGHT };
    Wrong { name, program }
}

const fn steps(name: &'static str, step: fn(&[u32], u32) -> String) -> Wrong {
    let program = Program { step, ..RIGHT };
    Wrong { name, program }
}

const fn prints(name: &'static str, lines: fn(&Lines) -> String) -> Wrong {
    let program = Program { lines, ..RIGHT };
    Wrong { name, program }
}

const fn ends(name: &'static str, end: fn(&End) -> String) -> Wrong {
    let program = Program { end, ..RIGHT };
    Wrong { name, program }
}

pub const WRONG: [Wrong; 55] = [
    reads("length 0 taken for the end", |bytes| {
        up_to(bytes, |entry| !entry.record.is_empty())
    }),
    reads("a record that is refused 21 taken for the end", |bytes| {
        up_to(bytes, |entry| records::read(&entry.record).is_some())
    }),
    reads("5 bytes taken for an entry", |bytes| {
        let mut log = Log::read(bytes);
        if log.cut.len() == HEADER - 1 {
            finish(&mut log);
        }
        log
    }),
    reads("a record that lacks a byte taken for whole", |bytes| {
        let mut log = Log::read(bytes);
        if missing(&log.cut) == Some(1) {
            finish(&mut log);
        }
        log
    }),
    reads("a cut record taken for whole", |bytes| {
        let mut log = Log::read(bytes);
        if missing(&log.cut).is_some() {
            finish(&mut log);
        }
        log
    }),
    reads("a whole entry at the end taken for cut off", |bytes| {
        let mut log = Log::read(bytes);
        if log.cut.is_empty()
            && let Some(last) = log.entries.pop()
        {
            log.cut = last.bytes();
        }
        log
    }),
    reads("a buffer of 65,540 bytes", |bytes| by_buffer(bytes, 65_540)),
    reads("a buffer of 65,536 bytes", |bytes| by_buffer(bytes, 65_536)),
    reads("a buffer of 32,768 bytes", |bytes| by_buffer(bytes, 32_768)),
    reads("length with the header", |bytes| {
        read_by(bytes, |rest| {
            let (header, after) = rest.split_at_checked(HEADER)?;
            let length = little_endian(&header[4..]) as usize;
            let (record, after) = after.split_at_checked(length.saturating_sub(HEADER))?;
            Some((little_endian(&header[..4]), record, after))
        })
    }),
    reads("length in 8 bits", |bytes| {
        read_by(bytes, |rest| {
            let (header, after) = rest.split_at_checked(HEADER)?;
            let (record, after) = after.split_at_checked(header[4].into())?;
            Some((little_endian(&header[..4]), record, after))
        })
    }),
    reads("length with the high byte first", |bytes| {
        read_by(bytes, |rest| {
            let (header, after) = rest.split_at_checked(HEADER)?;
            let length = little_endian(&[header[5], header[4]]) as usize;
            let (record, after) = after.split_at_checked(length)?;
            Some((little_endian(&header[..4]), record, after))
        })
    }),
    reads("number with the high byte first", |bytes| {
        let mut log = Log::read(bytes);
        for entry in &mut log.entries {
            entry.number = entry.number.swap_bytes();
        }
        log
    }),
    reads("length before the number", |bytes| {
        read_by(bytes, |rest| {
            let (header, after) = rest.split_at_checked(HEADER)?;
            let length = little_endian(&header[..2]) as usize;
            let (record, after) = after.split_at_checked(length)?;
            Some((little_endian(&header[2..]), record, after))
        })
    }),
    keeps("the number of a refused entry not kept", |_, matched| {
        matched.is_ok()
    }),
    keeps(
        "the number of a record refused 21 not kept",
        |_, matched| number(matched) != records::REFUSED,
    ),
    keeps("the number of an empty record not kept", |entry, _| {
        !entry.record.is_empty()
    }),
    steps("compared with the last number", |before, number| {
        compared(before.last().copied(), number)
    }),
    steps("compared with the first number", |before, number| {
        compared(before.first().copied(), number)
    }),
    steps("compared with the lowest number", |before, number| {
        compared(before.iter().copied().min(), number)
    }),
    steps("the first entry compared with 0", |before, number| {
        compared(highest(before).or(Some(0)), number)
    }),
    steps("a gap from 0 to the first entry", |before, number| {
        match (before, number.checked_sub(1)) {
            ([], Some(last)) => format!("gap 0 {last}\n"),
            _ => step(before, number),
        }
    }),
    steps("0 taken for no number before", |before, number| {
        compared(highest(before).filter(|&highest| highest != 0), number)
    }),
    steps(
        "4,294,967,295 taken for no number before",
        |before, number| {
            let highest = highest(before);
            compared(highest.filter(|&highest| highest != u32::MAX), number)
        },
    ),
    steps("a gap for a rise of one", |before, number| {
        match rise(before, number) {
            Some(1) => format!("gap {number} {}\n", number - 1),
            _ => step(before, number),
        }
    }),
    steps("no gap of one number", |before, number| {
        unless(rise(before, number) == Some(2), before, number)
    }),
    steps("no gap after a backward entry", |before, number| {
        unless(
            is_backward(before) && rise(before, number).is_some(),
            before,
            number,
        )
    }),
    steps("no line after a backward entry", |before, number| {
        unless(is_backward(before), before, number)
    }),
    steps("backward only if below", |before, number| {
        unless(rise(before, number) == Some(0), before, number)
    }),
    steps("a gap from the highest number on", |before, number| {
        gap(before, number, |highest| [highest, number - 1])
    }),
    steps("a gap up to the number", |before, number| {
        gap(before, number, |highest| [highest + 1, number])
    }),
    steps("a gap with the count of numbers", |before, number| {
        gap(before, number, |highest| {
            [highest + 1, number - highest - 1]
        })
    }),
    steps("highest + 1 in 32 bits", |before, number| {
        match highest(before) {
            Some(u32::MAX) if number == 0 => String::new(),
            Some(u32::MAX) => format!("gap 0 {}\n", number - 1),
            _ => step(before, number),
        }
    }),
    steps("the rise in 32 bits", |before, number| {
        let highest = highest(before);
        let rise = highest.map(|highest| (highest, number.wrapping_sub(highest)));
        match rise {
            Some((highest, 2..)) => {
                let [first, last] = [highest.wrapping_add(1), number.wrapping_sub(1)];
                format!("gap {first} {last}\n")
            }
            Some((_, 1)) => String::new(),
            _ => step(before, number),
        }
    }),
    steps("compared as signed numbers", |before, number| {
        let signed = before.iter().map(|number| number.cast_signed());
        match signed.max() {
            Some(highest) if number.cast_signed() <= highest => "backward\n".into(),
            Some(highest) if number.cast_signed().abs_diff(highest) > 1 => {
                let first = highest.wrapping_add(1).cast_unsigned();
                format!("gap {first} {}\n", number.wrapping_sub(1))
            }
            _ => String::new(),
        }
    }),
    prints("the number as a signed one", |of| {
        let number = of.number.cast_signed();
        format!("{}entry {number} {}\n", of.step, line(of.matched))
    }),
    prints("the place in the log for the number", |of| {
        format!("{}entry {} {}\n", of.step, of.place, line(of.matched))
    }),
    prints("the other line after the entry's own", |of| {
        lines(&Lines { step: "", ..*of }) + of.step
    }),
    prints("the other line before it without a line feed", |of| {
        let step = of.step.replace('\n', " ");
        lines(&Lines { step: &step, ..*of })
    }),
    prints("no line of a refused entry", |of| match of.matched {
        Ok(_) => lines(of),
        Err(_) => of.step.into(),
    }),
    prints("the whole text of `place`", |of| {
        format!("{}entry {} {}", of.step, of.number, text(of.matched))
    }),
    prints("the margin of a placed entry", |of| match of.matched {
        Ok(placed) => {
            let margin = placed.margin.to_bits();
            format!("{} {margin:08X}\n", lines(of).trim_end())
        }
        Err(_) => lines(of),
    }),
    prints("the runner-up of a placed entry", |of| {
        let placed = of.matched.as_ref().ok();
        match placed.and_then(|placed| placed.runner_up) {
            Some(next) => format!("{}entry {} best {next}\n", of.step, of.number),
            None => lines(of),
        }
    }),
    prints("16 without its margin", |of| match number(of.matched) {
        16 => format!("{}entry {} refused 16\n", of.step, of.number),
        _ => lines(of),
    }),
    prints("7 with its two numbers", |of| match of.matched {
        Err(refused) if refused.number == 7 => {
            let [have, need] = [refused.words[0], refused.words[1]];
            format!("{}entry {} refused 7 {have} {need}\n", of.step, of.number)
        }
        _ => lines(of),
    }),
    ends("a gap before a cut entry", |of| {
        before_end(of, |step| step.starts_with("gap"))
    }),
    ends("backward before a cut entry", |of| {
        before_end(of, |step| step.starts_with("backward"))
    }),
    ends("the number of a cut entry", |of| {
        match of.cut.first_chunk::<4>() {
            Some(number) => format!("entry {} {}", little_endian(number), end(of)),
            None => end(of),
        }
    }),
    ends("the count of missing bytes", |of| match missing(of.cut) {
        Some(missing) => format!("refused 26 {missing}\n"),
        None => end(of),
    }),
    ends("the count without the header", |of| {
        match of.cut.len().checked_sub(HEADER) {
            Some(count) => format!("refused 26 {count}\n"),
            None => end(of),
        }
    }),
    ends("the count in 16 bits", |of| match of.cut.len() {
        0 => String::new(),
        count => format!("refused 26 {}\n", count as u16),
    }),
    ends("the place of a cut entry's first byte", |of| {
        match of.cut.len() {
            0 => String::new(),
            count => format!("refused 26 {}\n", of.length - count),
        }
    }),
    ends("no line of a cut entry", |_| String::new()),
    ends("no line of a cut header", |of| match of.cut.len() {
        1..HEADER => String::new(),
        _ => end(of),
    }),
    ends("a count of 0 after a whole entry", |of| {
        format!("refused 26 {}\n", of.cut.len())
    }),
];

/// The entries before the first of which this does not hold, and nothing else.
fn up_to(bytes: &[u8], is_so: fn(&Entry) -> bool) -> Log {
    let mut log = Log::read(bytes);
    if let Some(place) = log.entries.iter().position(|entry| !is_so(entry)) {
        log.entries.truncate(place);
        log.cut.clear();
    }
    log
}

/// Takes the bytes of the cut entry, at least those of its number, for an entry.
fn finish(log: &mut Log) {
    let cut = take(&mut log.cut);
    log.entries.push(Entry {
        number: little_endian(&cut[..4]),
        record: cut.get(HEADER..).unwrap_or_default().to_vec(),
    });
}

/// An entry that does not fit into the buffer looks cut off, since a read of 0 bytes looks like the end.
fn by_buffer(bytes: &[u8], size: usize) -> Log {
    let mut log = Log::read(bytes);
    let fits = |entry: &Entry| HEADER + entry.record.len() <= size;
    if let Some(place) = log.entries.iter().position(|entry| !fits(entry)) {
        log.cut = log.entries[place].bytes();
        log.entries.truncate(place);
    }
    log.cut.truncate(size);
    log
}

/// By how much the number is above the highest one before it; 0 if it is equal.
fn rise(before: &[u32], number: u32) -> Option<u32> {
    number.checked_sub(highest(before)?)
}

/// Left out if so.
fn unless(is_left_out: bool, before: &[u32], number: u32) -> String {
    if is_left_out {
        String::new()
    } else {
        step(before, number)
    }
}

fn is_backward(before: &[u32]) -> bool {
    let last = before.split_last();
    last.is_some_and(|(&last, before)| step(before, last) == "backward\n")
}

/// Other numbers in a gap, by the highest number before it.
fn gap(before: &[u32], number: u32, numbers: impl Fn(u32) -> [u32; 2]) -> String {
    match (highest(before), rise(before, number)) {
        (Some(highest), Some(2..)) => {
            let [first, last] = numbers(highest);
            format!("gap {first} {last}\n")
        }
        _ => step(before, number),
    }
}

/// The line that a whole entry would have before its own, if it is such a one.
fn before_end(of: &End, is_such: fn(&str) -> bool) -> String {
    let number = of.cut.first_chunk::<4>();
    let step = number.map(|number| step(of.numbers, little_endian(number)));
    step.filter(|step| is_such(step)).unwrap_or_default() + &end(of)
}
