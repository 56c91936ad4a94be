//! Logs (document 02, 2.9): what the program `reread` prints, byte by byte, however the log is cut into pieces.

use crate::run::{Piece, Program, Ran};
use crate::subject::{Bytes, Subject};
use cases::prng::Prng;
use matches::given::{GivenLog, LOG_KINDS, LogKind, Records};
use matches::logs::{CASES, HEADER, Known, Log, Shown, WRONG, printed_numbers};
use std::fmt::{self, Display, Formatter};
use std::mem::take;

/// What it prints on standard error if an entry is cut off, before that entry's line.
const CUT_OFF: &str = "reread: the last entry is cut off: ";

/// Longer logs are not written byte by byte.
const BYTE_BY_BYTE: usize = 2_000;

/// About so many pieces of random sizes.
const PIECES: usize = 40;

/// A program that fails so often in one way gets no further log in that way: it may take long each time.
const MOST_DIFFERENT: u64 = 5;

/// How a log is given to the program: the length of each piece in turn, by the log's length, or all from a file.
struct Way {
    name: &'static str,
    pieces: Option<fn(&mut Prng, usize) -> usize>,
    is_used: fn(usize) -> bool,
}

const WAYS: [Way; 6] = [
    Way {
        name: "output of `reread`, from a file",
        pieces: None,
        is_used: |_| true,
    },
    Way {
        name: "output of `reread`, whole",
        pieces: Some(|_, length| length),
        is_used: |_| true,
    },
    Way {
        name: "output of `reread`, in pieces of any size",
        pieces: Some(|prng, length| {
            let most = prng.pick(&[1, HEADER, length * 2 / PIECES, length * 2 / PIECES]);
            1 + prng.place(most.max(1))
        }),
        is_used: |length| length > 1,
    },
    Way {
        name: "output of `reread`, byte by byte",
        pieces: Some(|_, _| 1),
        is_used: |length| (2..=BYTE_BY_BYTE).contains(&length),
    },
    Way {
        name: "output of `reread`, in pieces of 65,540 bytes",
        pieces: Some(|_, _| 65_540),
        is_used: |length| length > 65_540,
    },
    Way {
        name: "output of `reread`, in pieces of 65,541 bytes",
        pieces: Some(|_, _| 65_541),
        is_used: |length| length > 65_541,
    },
];

pub fn compare() -> Vec<Subject> {
    let records = Records::of_all_kinds();
    let mut run = Run::new();
    let mut subjects = Vec::new();
    for kind in &LOG_KINDS {
        let logs = kind.all(&records);
        for (place, given) in logs.iter().enumerate() {
            run.compare(kind, place, given);
        }
        let name = format!("kind: {}", kind.name);
        subjects.push(Subject::of_cases(name, [("logs", logs.len() as u64)]));
    }
    subjects.extend(run.subjects());
    subjects
}

struct Run {
    program: Program,
    prng: Prng,
    known: Known,
    reader: Subject,
    /// By the places of the ways.
    ways: [Subject; WAYS.len()],
    shown: Shown,
}

impl Run {
    fn new() -> Self {
        Self {
            program: Program::named("REREAD_BIN", "../target/bin/reread"),
            prng: Prng::new(91),
            known: Known::default(),
            reader: Subject::new("log that is written, by the oracle's reader"),
            ways: WAYS.map(|way| Subject::new(way.name)),
            shown: Shown::default(),
        }
    }

    fn compare(&mut self, kind: &LogKind, place: usize, given: &GivenLog) {
        let (bytes, log) = given.bytes_and_log();
        let asked = Asked(kind, place, &bytes);
        if matches!(given, GivenLog::Written(_)) {
            self.reader
                .check(Log::read(&bytes), log.clone(), format_args!("{asked}"));
        }
        let texts = log.texts(&mut self.known);
        self.shown.add(&log, &bytes, &texts, &mut self.known);
        let cut = texts.last().filter(|_| !log.cut.is_empty());
        let expected = Ran {
            success: true,
            stdout: texts.concat(),
            stderr: cut.map_or(String::new(), |line| format!("{CUT_OFF}{line}")),
        };
        for (way, subject) in WAYS.iter().zip(&mut self.ways) {
            if !(way.is_used)(bytes.len()) || subject.different >= MOST_DIFFERENT {
                continue;
            }
            let mut ours = match way.pieces {
                None => self.program.run_on_file(&bytes),
                Some(length) => {
                    let next = || length(&mut self.prng, bytes.len());
                    self.program.run(&pieces(&bytes, &log, &texts, next))
                }
            };
            let mut theirs = expected.clone();
            match &mut ours {
                Ok(ours) => shorten(ours, &mut theirs),
                Err(_) => theirs.stdout.clear(),
            }
            subject.check(ours, Ok(theirs), format_args!("{asked}"));
        }
    }

    fn subjects(self) -> Vec<Subject> {
        let count = |count: usize| count as u64;
        let cases = CASES.iter().zip(self.shown.cases);
        let wrong = WRONG.iter().zip(self.shown.wrong);
        let numbers = self.shown.numbers;
        let numbers = printed_numbers().map(|number| {
            let entries = numbers.get(&number).copied();
            (number, count(entries.unwrap_or(0)))
        });
        let mut subjects = vec![self.reader];
        subjects.extend(self.ways);
        subjects.extend([
            Subject::of_cases("entries by number", numbers),
            Subject::of_cases("logs", cases.map(|(case, of)| (case.name, count(of)))),
            Subject::of_cases(
                "wrong programs for logs that show",
                wrong.map(|(wrong, of)| (wrong.name, count(of))),
            ),
        ]);
        subjects
    }
}

/// The lines of all entries that a piece completes are printed before the program reads more.
fn pieces<'a>(
    mut bytes: &'a [u8],
    log: &Log,
    texts: &[String],
    mut next: impl FnMut() -> usize,
) -> Vec<Piece<'a>> {
    let mut entries = log.entries.iter().zip(texts).peekable();
    let mut pieces = Vec::new();
    let [mut written, mut whole, mut printed] = [0; 3];
    while !bytes.is_empty() {
        let (piece, rest) = bytes.split_at(next().min(bytes.len()));
        bytes = rest;
        written += piece.len();
        while let Some((entry, text)) = entries.peek() {
            let end = whole + HEADER + entry.record.len();
            if end > written {
                break;
            }
            whole = end;
            printed += text.len();
            entries.next();
        }
        let bytes = piece;
        pieces.push(Piece { bytes, printed });
    }
    pieces
}

/// Leaves of the outputs, which are long, the first line that differs and its place.
fn shorten(ours: &mut Ran, theirs: &mut Ran) {
    let [a, b] = [&mut ours.stdout, &mut theirs.stdout].map(take);
    let [a, b] = [&a, &b].map(|text| text.split_inclusive('\n').collect::<Vec<_>>());
    let mut places = 0..a.len().max(b.len());
    if let Some(place) = places.find(|&place| a.get(place) != b.get(place)) {
        ours.stdout = format!("line {place}: {:?}", a.get(place));
        theirs.stdout = format!("line {place}: {:?}", b.get(place));
    }
}

/// The kind of a log and its place in it, by which it can be made again, and its first bytes.
struct Asked<'a>(&'a LogKind, usize, &'a [u8]);

impl Display for Asked<'_> {
    fn fmt(&self, f: &mut Formatter) -> fmt::Result {
        let Self(kind, place, bytes) = self;
        write!(f, "{}, log {place}, {}", kind.name, Bytes(bytes))
    }
}
