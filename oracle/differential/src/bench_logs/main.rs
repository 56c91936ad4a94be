//! How long the program `reread` takes for a log, how long its calls of `match_board` alone, on the same log in memory, how long
//! those of the match with scores in their place, and how long upstream's matching alone: `bench_logs`, or `bench_logs
//! ours|calls|second|theirs|all ROUNDS [CASE]`. `second` is the match with scores. `theirs` is not inlined, so that a profile
//! shows it.

mod shots;

use cases::answer::{Answer, after};
use cases::prng::Prng;
use cases::tables::SLOPES_AND_FLOORS;
use charuco::words::{match_board, match_board_with_scores};
use differential::bench::{self, Bench, Side, runs};
use matches::logs::{self, Entry, HEADER, Known};
use matches::scores::MOST_SCORES;
use matches::{ANSWER_WORDS, MARKER_WORDS, MOST_PLACES, Matching, Samples};
use matches::{by_rust_and_model, told};
use records::{Shot, write};
use std::env;
use std::fs::{File, remove_file};
use std::hint::black_box;
use std::io::{Result, Seek, Write};
use std::iter;
use std::process::{Command, ExitCode, Stdio, id};
use theirs::likelihood_table;

fn main() -> ExitCode {
    let bench = Bench {
        program: "bench_logs",
        unit: "record",
        tells_memory: false,
        rounds: ROUNDS,
        first: || (),
    };
    let cases = [
        ("mixed records", shots::mixed()),
        ("a shelf", shots::shelf()),
    ];
    bench.run(cases.map(|(name, shots)| named(name, &shots)).into())
}

/// A round takes seconds.
const ROUNDS: usize = 11;

const ENTRIES: usize = 20_000;

fn named(name: &str, shots: &[Shot]) -> (String, Log) {
    let log = Log::new(shots);
    let bytes = log.bytes.len();
    (format!("{name}, {ENTRIES} entries, {bytes} bytes"), log)
}

struct Log {
    log: logs::Log,
    bytes: Vec<u8>,
    /// The same bytes.
    file: File,
    /// The records as upstream takes them.
    matchings: Vec<Matching>,
}

impl Log {
    /// Of the first shots that upstream answers for.
    fn new(shots: &[Shot]) -> Self {
        let shots = shots
            .iter()
            .filter(|shot| by_rust_and_model(shot).is_some());
        let shots: Vec<&Shot> = shots.take(ENTRIES).collect();
        assert_eq!(shots.len(), ENTRIES, "too few shots");
        let records = shots.iter().map(|shot| write(shot).bytes);
        let entries = numbers().zip(records);
        let log = logs::Log {
            entries: entries
                .map(|(number, record)| Entry { number, record })
                .collect(),
            cut: Vec::new(),
        };
        let bytes = log.bytes();
        let matchings = shots
            .iter()
            .map(|shot| Matching::new(shot, slope_and_floor(shot)));
        Self {
            file: file_of(&bytes).expect("a file for the log"),
            matchings: matchings.collect(),
            log,
            bytes,
        }
    }

    /// The program, with the log as its standard input.
    fn reread(&self) -> Command {
        (&self.file).rewind().expect("the start of the log");
        let program = env::var_os("REREAD_BIN");
        let mut command = Command::new(program.unwrap_or_else(|| "../target/bin/reread".into()));
        command.stdin(self.file.try_clone().expect("the log"));
        command
    }

    /// From the start of the program to its end.
    fn ours(&self) {
        let status = self.reread().stdout(Stdio::null()).status();
        assert!(status.expect("`reread` is started").success());
    }

    /// A call for each record.
    fn for_each(&self, mut call: impl FnMut(&[u8]) -> u32) {
        for record in records_of(&self.bytes) {
            black_box(call(record));
        }
    }

    fn samples(&self) -> Vec<Samples> {
        self.matchings.iter().map(Matching::samples).collect()
    }

    /// The number of markers. The samples, which are read before, are used up.
    #[inline(never)]
    fn theirs(&self, samples: &[Samples]) -> usize {
        let matchings = self.matchings.iter().zip(samples);
        matchings
            .map(|(matching, samples)| matching.count_of_markers(samples))
            .sum()
    }
}

impl bench::Case for Log {
    fn sides(&self) -> Vec<Side<'_>> {
        let ours = Side::ours(move |count| runs(count, || self.ours()));
        let calls = Side::calls(move |count| {
            let [mut values, mut lent] = arrays();
            runs(count, move || {
                self.for_each(|record| match_board(record, &mut lent, &mut values))
            })
        });
        let second = Side::second(move |count| {
            let [mut values, mut lent] = arrays();
            let mut scores = vec![f32::NAN; MOST_SCORES];
            runs(count, move || {
                self.for_each(|record| {
                    match_board_with_scores(record, &mut scores, &mut lent, &mut values)
                })
            })
        });
        let theirs = Side::theirs(move |count| {
            let samples: Vec<Vec<Samples>> = (0..count).map(|_| self.samples()).collect();
            let mut next = 0;
            runs(count, move || {
                next += 1;
                self.theirs(&samples[next - 1])
            })
        });
        vec![ours, calls, second, theirs]
    }

    /// All that the program prints, the words and output arrays of the calls, and the count of markers.
    fn agrees(&self) -> bool {
        let mut known = Known::default();
        let text = self.log.texts(&mut known).concat();
        let printed = self.reread().output().expect("`reread` is started");
        let records = || records_of(&self.bytes);
        let answers = records().map(|record| told(&known.matched(record)));
        let answers: Vec<Answer> = answers.collect();
        let mut scores = vec![f32::NAN; MOST_SCORES];
        let words: usize = answers.iter().map(|answer| answer.list.len()).sum();
        printed.status.success()
            && printed.stderr.is_empty()
            && printed.stdout == text.as_bytes()
            && iter::zip(records(), &answers)
                .all(|(record, answer)| is_answer(record, answer, &mut scores))
            && self.theirs(&self.samples()) == words / MARKER_WORDS
    }

    fn units(&self) -> usize {
        ENTRIES
    }

    fn fixed_runs(&self) -> Option<usize> {
        Some(1)
    }
}

/// Sequence numbers that rise by one, now and then by more, and now and then fall.
fn numbers() -> impl Iterator<Item = u32> {
    let mut prng = Prng::new(29);
    iter::successors(Some(100_000), move |number| {
        let step = 2 + prng.below(98) as u32;
        Some(match prng.below(100) {
            0 => number - step,
            1..5 => number + step,
            _ => number + 1,
        })
    })
}

/// A file without a name, so that none is left behind. What was just written the system still holds in memory.
fn file_of(bytes: &[u8]) -> Result<File> {
    let path = env::temp_dir().join(format!("bench_logs-{}", id()));
    let mut options = File::options();
    let options = options.read(true).write(true).create_new(true);
    let mut file = options.open(&path)?;
    remove_file(path)?;
    file.write_all(bytes)?;
    Ok(file)
}

/// By which the formula gives the table of a shot that upstream answers for.
fn slope_and_floor(shot: &Shot) -> [f32; 2] {
    let mut pairs = SLOPES_AND_FLOORS.into_iter();
    let pair = pairs.find(|&pair| likelihood_table(pair).map(f32::to_bits) == shot.table);
    pair.expect("it is one of them")
}

/// The records of a log of whole entries.
fn records_of(log: &[u8]) -> impl Iterator<Item = &[u8]> {
    let mut rest = log;
    iter::from_fn(move || {
        let ([.., low, high], after) = rest.split_first_chunk::<HEADER>()?;
        let length = u16::from_le_bytes([*low, *high]);
        let (record, after) = after.split_at(length.into());
        rest = after;
        Some(record)
    })
}

/// `values` and the output array of a match.
fn arrays() -> [Vec<u32>; 2] {
    [vec![0; ANSWER_WORDS], vec![0; MOST_PLACES]]
}

/// Do both matches return this for the record?
fn is_answer(record: &[u8], answer: &Answer, scores: &mut [f32]) -> bool {
    let expected = iter::zip(arrays(), [&answer.words, &answer.list]);
    let expected: Vec<Vec<u32>> = expected
        .map(|(array, written)| after(array, written))
        .collect();
    let returns = |call: &mut dyn FnMut(&mut [u32], &mut [u32]) -> u32| {
        let [mut values, mut lent] = arrays();
        call(&mut lent, &mut values) == answer.number && [values, lent] == expected[..]
    };
    returns(&mut |lent, values| match_board(record, lent, values))
        && returns(&mut |lent, values| match_board_with_scores(record, scores, lent, values))
}
