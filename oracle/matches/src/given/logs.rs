//! Logs (document 02, 2.9) of records of all kinds. All are random, each kind from a seed of its own.

use super::{
    KINDS, Kind, LEGACY_KINDS, LEGACY_LONGEST_KINDS, LEGACY_RESTATE_KINDS, LEGACY_SCORE_KINDS,
    LONGEST_KINDS, PAIRED_KINDS, RESTATE_KINDS, SCORE_KINDS, prng_of,
};
use crate::logs::{Entry, HEADER, Log};
use cases::prng::Prng;
use records::{LONGEST, damage};

#[derive(Clone, Debug)]
pub enum GivenLog {
    /// As it is written.
    Written(Log),
    /// Damaged, and the entries before the damage.
    Damaged(Vec<u8>, Vec<Entry>),
}

impl GivenLog {
    /// The bytes, and the log that they are. Only the oracle's reader knows it of damaged ones.
    pub fn bytes_and_log(&self) -> (Vec<u8>, Log) {
        match self {
            Self::Written(log) => (log.bytes(), log.clone()),
            Self::Damaged(bytes, _) => (bytes.clone(), Log::read(bytes)),
        }
    }
}

pub struct LogKind {
    /// The seed is made of it.
    pub name: &'static str,
    count: usize,
    make: fn(&mut Prng, &Records) -> Vec<GivenLog>,
}

const fn kind(
    name: &'static str,
    count: usize,
    make: fn(&mut Prng, &Records) -> Vec<GivenLog>,
) -> LogKind {
    LogKind { name, count, make }
}

pub const LOG_KINDS: [LogKind; 12] = [
    kind("an empty log", 1, |_, _| written([Log::default()])),
    kind("records of every kind", 1, of_every_kind),
    kind("any numbers", 100, |prng, records| {
        written([whole(log(prng, records, &STEPS))])
    }),
    kind(
        "numbers at the ends of their range",
        200,
        |prng, records| {
            let count = 1 + prng.place(6);
            let records = prng.many(count, |prng| records.pick_short(prng));
            written([whole(entries(prng, &ENDS, records))])
        },
    ),
    kind("empty records", 40, |prng, _| {
        let count = 1 + prng.place(8);
        written([whole(entries(prng, &STEPS, vec![Vec::new(); count]))])
    }),
    kind("thousands of short records", 3, |prng, _| {
        let count = prng.pick(&[3_000, 11_000, 12_000]);
        let records = prng.many(count, |prng| match prng.below(50) {
            0 => vec![prng.byte()],
            _ => Vec::new(),
        });
        written([whole(entries(prng, &STEPS, records))])
    }),
    kind("the last entry cut off", 150, |prng, records| {
        let entries = log(prng, records, &STEPS);
        let length = any_cut(prng, &entries);
        written([Log::cut_after(entries, length)])
    }),
    kind("short logs cut off after each byte", 5, cut_everywhere),
    kind("records of 65,535 bytes", 30, of_longest),
    kind("lengths changed", 80, |prng, records| {
        let mut entries = log(prng, records, &STEPS);
        entries.truncate(40);
        let bytes = with_other_length(prng, &entries);
        vec![GivenLog::Damaged(bytes, entries)]
    }),
    kind("damaged logs", 100, |prng, records| {
        let entries = log(prng, records, &STEPS);
        let bytes = damaged(prng, records, &entries);
        vec![GivenLog::Damaged(bytes, entries)]
    }),
    kind("random bytes", 150, |prng, _| {
        vec![GivenLog::Damaged(random(prng), Vec::new())]
    }),
];

impl LogKind {
    pub fn all(&self, records: &Records) -> Vec<GivenLog> {
        let mut prng = prng_of(self.name, 29);
        let logs = prng.many(self.count, |prng| (self.make)(prng, records));
        logs.concat()
    }
}

/// All records in turn, with numbers that rise by one.
fn of_every_kind(prng: &mut Prng, records: &Records) -> Vec<GivenLog> {
    let parts = records.any.chunks(MOST_ENTRIES);
    let logs = parts.map(|part| {
        let any = prng.below(1 << 31) as u32;
        let numbers = prng.pick(&[0, 1, any])..;
        let entries = numbers.zip(part.to_vec());
        let entries = entries.map(|(number, record)| Entry { number, record });
        whole(entries.collect())
    });
    logs.map(GivenLog::Written).collect()
}

fn written<const N: usize>(logs: [Log; N]) -> Vec<GivenLog> {
    logs.map(GivenLog::Written).into()
}

fn whole(entries: Vec<Entry>) -> Log {
    Log {
        entries,
        cut: Vec::new(),
    }
}

/// The records of the entries.
pub struct Records {
    /// The first ones of every kind.
    any: Vec<Vec<u8>>,
    short: Vec<Vec<u8>>,
    longest: Vec<Vec<u8>>,
}

/// Of each kind so many, as far as there are.
const OF_EACH_KIND: usize = 40;
const OF_LONG_KINDS: usize = 4;

/// The mean length from which a kind is one with long records.
const LONG: usize = 3_000;

const SHORT: usize = 60;

impl Records {
    pub fn of_all_kinds() -> Self {
        let kinds: [&[Kind]; 9] = [
            &KINDS,
            &LEGACY_KINDS,
            &SCORE_KINDS,
            &LEGACY_SCORE_KINDS,
            &RESTATE_KINDS,
            &LEGACY_RESTATE_KINDS,
            &PAIRED_KINDS,
            &LONGEST_KINDS,
            &LEGACY_LONGEST_KINDS,
        ];
        let mut any = Vec::new();
        let mut longest = Vec::new();
        for kind in kinds.into_iter().flatten() {
            let mut of_kind = first(kind);
            if of_kind.iter().map(Vec::len).sum::<usize>() > LONG * of_kind.len() {
                of_kind.truncate(OF_LONG_KINDS);
            }
            let of_most_bytes = of_kind.iter().filter(|record| record.len() == LONGEST);
            longest.extend(of_most_bytes.cloned());
            any.append(&mut of_kind);
        }
        any.retain(|record| record.len() < LONGEST);
        let short = any.iter().filter(|record| record.len() <= SHORT);
        Self {
            short: short.cloned().collect(),
            any,
            longest,
        }
    }

    /// Now and then an empty one, or bytes of no meaning.
    fn pick(&self, prng: &mut Prng) -> Vec<u8> {
        match prng.below(20) {
            0 => Vec::new(),
            1 => damage::random_bytes(prng),
            _ => of(prng, &self.any),
        }
    }

    fn pick_short(&self, prng: &mut Prng) -> Vec<u8> {
        match prng.below(4) {
            0 => Vec::new(),
            1 => vec![prng.byte()],
            _ => of(prng, &self.short),
        }
    }

    /// Of 65,535 bytes, now and then of no meaning.
    fn pick_longest(&self, prng: &mut Prng) -> Vec<u8> {
        match prng.below(5) {
            0 => prng.many(LONGEST, Prng::byte),
            _ => of(prng, &self.longest),
        }
    }
}

/// No entry has a longer record.
fn first(kind: &Kind) -> Vec<Vec<u8>> {
    let records = kind.first(OF_EACH_KIND.min(kind.count));
    let records = records.map(|given| given.record);
    records.filter(|record| record.len() <= LONGEST).collect()
}

fn of(prng: &mut Prng, records: &[Vec<u8>]) -> Vec<u8> {
    records[prng.place(records.len())].clone()
}

/// The next number, by the highest and the last of those before it.
type Step = fn(&mut Prng, u32, u32) -> u32;

const RISE: Step = |_, highest, _| highest.saturating_add(1);

/// Most numbers rise by one.
const STEPS: [Step; 20] = [
    RISE,
    RISE,
    RISE,
    RISE,
    RISE,
    RISE,
    RISE,
    RISE,
    |_, highest, _| highest.saturating_add(2),
    |_, highest, _| highest.saturating_add(3),
    |prng, highest, _| highest.saturating_add(2 + prng.below(1_000) as u32),
    |prng, highest, _| highest.saturating_add(prng.below(1 << 28) as u32),
    |_, highest, _| highest,
    |_, highest, _| highest.saturating_sub(1),
    |prng, highest, _| prng.below(u64::from(highest) + 1) as u32,
    |_, _, last| last,
    |_, _, last| last.saturating_add(1),
    |_, _, last| last.saturating_add(2),
    |_, _, last| last.saturating_sub(1),
    |_, _, last| last.saturating_sub(2),
];

const ENDS: [Step; 12] = [
    RISE,
    RISE,
    RISE,
    |_, highest, _| highest.saturating_add(2),
    |_, highest, _| highest,
    |prng, _, _| at_end(prng),
    |prng, _, _| at_end(prng),
    |prng, _, _| at_end(prng),
    |prng, _, _| prng.draw() as u32,
    |_, _, _| 0,
    |_, _, _| u32::MAX,
    |_, _, _| u32::MAX - 1,
];

fn at_end(prng: &mut Prng) -> u32 {
    let near = prng.below(4) as u32;
    prng.pick(&[near, (1 << 31) - 2 + near, u32::MAX - near])
}

const MOST_ENTRIES: usize = 200;

/// An entry for each record.
fn entries(prng: &mut Prng, steps: &[Step], records: Vec<Vec<u8>>) -> Vec<Entry> {
    let any = prng.draw() as u32;
    let end = at_end(prng);
    let mut number = prng.pick(&[0, 0, 1, 1, 2, 70, any, any, end, end]);
    let mut highest = 0;
    let entry = |record| {
        let entry = Entry { number, record };
        highest = highest.max(number);
        number = prng.pick(steps)(prng, highest, number);
        entry
    };
    records.into_iter().map(entry).collect()
}

fn log(prng: &mut Prng, records: &Records, steps: &[Step]) -> Vec<Entry> {
    let most = prng.pick(&[2, 4, 8, 20, 60, MOST_ENTRIES]);
    let count = 1 + prng.place(most);
    let records = prng.many(count, |prng| records.pick(prng));
    entries(prng, steps, records)
}

/// Where the log of these entries is cut off: in one of the last, at any byte of it or at one that shows something.
fn any_cut(prng: &mut Prng, entries: &[Entry]) -> usize {
    let last = prng.place(3).min(entries.len() - 1);
    let (before, from) = entries.split_at(entries.len() - 1 - last);
    let length = from[0].bytes().len();
    let any = prng.place(length);
    let in_header = [1, 2, 3, 4, 5, HEADER];
    let later = [length - 1, length - 1, length - 2, any, any];
    let cut = prng.pick(&[&in_header[..], &later].concat());
    bytes_of(before).len() + cut.min(length - 1)
}

fn bytes_of(entries: &[Entry]) -> Vec<u8> {
    entries.iter().flat_map(Entry::bytes).collect()
}

/// Cut off after each number of bytes, and whole.
fn cut_everywhere(prng: &mut Prng, records: &Records) -> Vec<GivenLog> {
    let count = 3 + prng.place(3);
    let records = prng.many(count, |prng| records.pick_short(prng));
    let entries = entries(prng, &STEPS, records);
    let lengths = 0..=bytes_of(&entries).len();
    let logs = lengths.map(|length| Log::cut_after(entries.clone(), length));
    logs.map(GivenLog::Written).collect()
}

/// Short records between the longest. Half of the logs are cut off, some of them a byte before the end.
fn of_longest(prng: &mut Prng, records: &Records) -> Vec<GivenLog> {
    let steps = prng.pick(&[&STEPS[..], &ENDS]);
    let count = 1 + prng.place(5);
    let records = prng.many(count, |prng| match prng.below(3) {
        0 => records.pick_short(prng),
        _ => records.pick_longest(prng),
    });
    let entries = entries(prng, steps, records);
    let length = bytes_of(&entries).len();
    let cut = if prng.one_in(2) {
        any_cut(prng, &entries)
    } else {
        length
    };
    written([Log::cut_after(entries, cut)])
}

/// The length of an entry is another, so that the entries after it begin elsewhere.
fn with_other_length(prng: &mut Prng, entries: &[Entry]) -> Vec<u8> {
    let place = prng.place(entries.len());
    let (before, from) = entries.split_at(place);
    let at = bytes_of(before).len() + 4;
    let length = from[0].record.len();
    let next = from.get(1).map_or(0, |next| HEADER + next.record.len());
    let any = prng.place(length + 200);
    let other = prng.pick(&[
        0,
        length.saturating_sub(1),
        length + 1,
        length.saturating_sub(HEADER),
        length + HEADER,
        length + next,
        length ^ 256,
        any,
        any,
        LONGEST,
    ]);
    let mut bytes = bytes_of(entries);
    bytes[at..at + 2].copy_from_slice(&(other as u16).to_le_bytes());
    bytes
}

/// Some bytes changed, missing or added; or a cut log with another one after it.
fn damaged(prng: &mut Prng, records: &Records, entries: &[Entry]) -> Vec<u8> {
    let mut bytes = bytes_of(entries);
    let place = prng.place(bytes.len());
    match prng.below(4) {
        0 => damage::with_bytes_changed(prng, &bytes),
        1 => {
            let end = bytes.len().min(place + 1 + prng.place(8));
            bytes.drain(place..end);
            bytes
        }
        2 => {
            let count = 1 + prng.place(8);
            let added = prng.many(count, Prng::byte);
            bytes.splice(place..place, added);
            bytes
        }
        _ => {
            bytes.truncate(any_cut(prng, entries));
            let second = log(prng, records, &STEPS);
            [bytes, bytes_of(&second)].concat()
        }
    }
}

/// Most bytes are 0 or small, so that most lengths are small.
fn random(prng: &mut Prng) -> Vec<u8> {
    let most = prng.pick(&[3, 10, 100, 1_000, 5_000]);
    let length = prng.place(most);
    let masks: &[u8] = prng.pick(&[&[0, 0, 0, 0, 0, 1, 15, 255], &[0, 1, 3], &[255]]);
    prng.many(length, |prng| prng.byte() & prng.pick(masks))
}
